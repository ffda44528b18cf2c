//! Links the proved static library: from the folder in FJALGROUT_LIB, or else from target/staticlib of the repository that this crate stands in.

use std::env;
use std::path::PathBuf;

fn main() {
    let here = PathBuf::from(env::var_os("CARGO_MANIFEST_DIR").expect("cargo names the crate's folder"));
    let folder = env::var_os("FJALGROUT_LIB").map_or_else(|| here.join("../target/staticlib"), PathBuf::from);
    let archive = folder.join("libfjalgrout.a");
    assert!(archive.is_file(), "no {}: run bin/staticlib in the repository", archive.display());
    println!("cargo:rustc-link-search=native={}", folder.display());
    println!("cargo:rustc-link-lib=static=fjalgrout");
    println!("cargo:rerun-if-changed={}", archive.display());
    println!("cargo:rerun-if-env-changed=FJALGROUT_LIB");
}
