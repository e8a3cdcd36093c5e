//! Links the proved library, `crates/api/out/libapi.a` of the repository.

use std::path::Path;

fn main() {
    let folder = Path::new(env!("CARGO_MANIFEST_DIR")).join("../crates/api/out");
    let library = folder.join("libapi.a");
    println!("cargo:rerun-if-changed={}", library.display());
    if !library.is_file() {
        eprintln!("crates/api/out/libapi.a is missing: run `rt lib` in the repository's crates/api first");
        std::process::exit(1);
    }
    println!("cargo:rustc-link-search=native={}", folder.display());
    println!("cargo:rustc-link-lib=static=api");
}
