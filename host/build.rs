//! Links the archive of crate capi: `tools/archive capi`, in the folder that VISCROMBAL_ARCHIVE names, else ../target/staticlib. The command
//! is told the archive's sum, and the identity of the kit that proved it: that of the file SUMS beside it, which must list that sum.

use std::path::{Path, PathBuf};
use std::{env, fs, process};

#[path = "src/bin/viscrombal-host/sha256.rs"]
mod sha256;

fn main() {
    let here = PathBuf::from(env::var_os("CARGO_MANIFEST_DIR").expect("cargo sets it"));
    let folder = here.join(env::var_os("VISCROMBAL_ARCHIVE").unwrap_or_else(|| "../target/staticlib".into()));
    let archive = folder.join("libcapi.a");
    println!("cargo:rerun-if-env-changed=VISCROMBAL_ARCHIVE");
    println!("cargo:rerun-if-changed={}", archive.display());
    let sums = folder.join("SUMS");
    if sums.exists() {
        println!("cargo:rerun-if-changed={}", sums.display());
    }
    let Ok(bytes) = fs::read(&archive) else {
        eprintln!("no archive {}: run 'tools/archive capi', or name its folder by VISCROMBAL_ARCHIVE, as ../proved", archive.display());
        process::exit(1);
    };
    let sum = sha256::sum(&bytes);
    println!("cargo:rustc-env=VISCROMBAL_KIT={}", kit(&sums, &sum).unwrap_or_else(|| "not known".into()));
    println!("cargo:rustc-env=VISCROMBAL_SUM={sum}");
    println!("cargo:rustc-link-search=native={}", folder.display());
    println!("cargo:rustc-link-lib=static=capi");
}

/// The kit that SUMS names, where it lists the archive by this sum.
fn kit(sums: &Path, sum: &str) -> Option<String> {
    let sums = fs::read_to_string(sums).ok()?;
    let listed = sums.lines().any(|line| line == format!("{sum}  libcapi.a"));
    let kit = sums.lines().find_map(|line| line.strip_prefix("# kit "))?;
    listed.then(|| kit.to_string())
}
