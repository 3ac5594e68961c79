//! Links the proved library, which `tools/library` writes.

fn main() {
    let folder = concat!(env!("CARGO_MANIFEST_DIR"), "/../crates/clib/out");
    println!("cargo:rerun-if-changed={folder}/libclib.a");
    println!("cargo:rustc-link-search=native={folder}");
    println!("cargo:rustc-link-lib=static=clib");
}
