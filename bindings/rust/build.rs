// Links the archive that `tools/build archive` writes at the repository's root.
use std::path::PathBuf;

fn main() {
    let root = PathBuf::from(env!("CARGO_MANIFEST_DIR")).join("../..");
    let archive = root.join("target/staticlib");
    if !archive.join("libcabi.a").exists() {
        panic!("target/staticlib/libcabi.a is missing: run `tools/build archive` at the repository's root first");
    }
    println!("cargo:rustc-link-search=native={}", archive.display());
    println!("cargo:rustc-link-lib=static=cabi");
    println!("cargo:rerun-if-changed={}", archive.join("libcabi.a").display());
}
