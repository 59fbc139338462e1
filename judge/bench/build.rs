//! VISCROMBAL_ARCHIVES is the folder of libcapi.a and libjudged.a for this processor (tools/speed makes them).
fn main() {
    println!("cargo:rerun-if-env-changed=VISCROMBAL_ARCHIVES");
    let folder = std::env::var("VISCROMBAL_ARCHIVES").expect("VISCROMBAL_ARCHIVES names the folder of the archives");
    println!("cargo:rustc-link-search=native={folder}");
    for crate_name in ["judged", "capi"] {
        println!("cargo:rerun-if-changed={folder}/lib{crate_name}.a");
        println!("cargo:rustc-link-lib=static:-bundle={crate_name}");
    }
}
