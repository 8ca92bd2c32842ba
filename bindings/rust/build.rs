//! Links the proved code: `rt lib` has written it in crates/exports.

fn main() {
    let folder = concat!(env!("CARGO_MANIFEST_DIR"), "/../../crates/exports/out");
    println!("cargo:rustc-link-search=native={folder}");
    println!("cargo:rustc-link-lib=static=exports");
    println!("cargo:rerun-if-changed={folder}/libexports.a");
}
