//! Says where the library is: in the folder that CUTTING_PLANES_LIBRARY names, or where `tools/archive` writes it.

fn main() {
    let written = concat!(env!("CARGO_MANIFEST_DIR"), "/../../target/staticlib");
    let folder = std::env::var("CUTTING_PLANES_LIBRARY").unwrap_or(written.to_string());
    println!("cargo:rerun-if-env-changed=CUTTING_PLANES_LIBRARY");
    println!("cargo:rerun-if-changed={folder}/libchecker.a");
    println!("cargo:rustc-link-search=native={folder}");
    println!("cargo:rustc-link-lib=static=checker");
}
