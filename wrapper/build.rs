//! Links the proved library: libapi.a in the folder that SHEET_LOWER_DIR names, or `crates/api/out` of the repository.

use std::env;
use std::path::{Path, PathBuf};
use std::process::exit;

fn main() {
    println!("cargo:rerun-if-env-changed=SHEET_LOWER_DIR");
    let beside = Path::new(env!("CARGO_MANIFEST_DIR")).join("../crates/api/out");
    let folder = env::var_os("SHEET_LOWER_DIR").map_or(beside, PathBuf::from);
    let library = folder.join("libapi.a");
    println!("cargo:rerun-if-changed={}", library.display());
    if !library.is_file() {
        eprintln!("{} is missing: run `rt lib` in the repository's crates/api first", library.display());
        exit(1);
    }
    println!("cargo:rustc-link-search=native={}", folder.display());
    println!("cargo:rustc-link-lib=static=api");
}
