//! Links the static library `boundary` and the C code of its kit, if the feature `boundary` is on.
//!
//! `CARDS_LIB_DIR` names the folder of `libboundary.a`, `CARDS_KIT_LIB` that of `liblibc_c.a`.

use std::env;
use std::path::PathBuf;

fn main() {
    println!("cargo:rerun-if-changed=build.rs");
    if env::var_os("CARGO_FEATURE_BOUNDARY").is_none() {
        return;
    }
    let manifest = PathBuf::from(env::var_os("CARGO_MANIFEST_DIR").expect("cargo sets the manifest's folder"));
    let boundary = folder("CARDS_LIB_DIR").unwrap_or_else(|| manifest.join("../crates/boundary/out"));
    let kit = folder("CARDS_KIT_LIB").unwrap_or_else(|| PathBuf::from("/opt/rattle/c"));
    link(boundary, "boundary");
    link(kit, "libc_c");
}

fn folder(variable: &str) -> Option<PathBuf> {
    println!("cargo:rerun-if-env-changed={variable}");
    env::var_os(variable).map(PathBuf::from)
}

fn link(folder: PathBuf, library: &str) {
    let file = folder.join(format!("lib{library}.a"));
    assert!(file.is_file(), "there is no {}", file.display());
    println!("cargo:rerun-if-changed={}", file.display());
    println!("cargo:rustc-link-search=native={}", folder.display());
    println!("cargo:rustc-link-lib=static={library}");
}
