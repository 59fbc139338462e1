//! wasmquay-core's modules, unchanged, under a root of our own (build.rs).
include!(concat!(env!("OUT_DIR"), "/root.rs"));
