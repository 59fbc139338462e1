//! The root of the original, written anew: its own lib.rs names modules that were not taken (fixture, json, report).
//! VISCROMBAL_ORIGINAL is the folder that has crates/wasmquay-core/src; its files are compiled as they are.
use std::{env, fs, path::Path};

const MODULES: [&str; 6] = ["error", "leb", "wasm", "wit", "policy", "compat"];

fn main() {
    println!("cargo:rerun-if-env-changed=VISCROMBAL_ORIGINAL");
    let folder = env::var("VISCROMBAL_ORIGINAL").expect("VISCROMBAL_ORIGINAL names the folder of the original's sources");
    let source = Path::new(&folder).join("crates/wasmquay-core/src");
    let mut root = String::new();
    for module in MODULES {
        let file = fs::canonicalize(source.join(format!("{module}.rs"))).expect("the original's file");
        println!("cargo:rerun-if-changed={}", file.display());
        root += &format!("#[path = {file:?}]\npub mod {module};\n");
    }
    fs::write(Path::new(&env::var("OUT_DIR").unwrap()).join("root.rs"), root).unwrap();
}
