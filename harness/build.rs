//! Links the static library that `rt lib` makes of crates/boundary.

fn main() {
    let root = std::env::var("CARGO_MANIFEST_DIR").expect("cargo sets it");
    let folder = format!("{root}/../crates/boundary/out");
    println!("cargo:rerun-if-changed={folder}/libboundary.a");
    println!("cargo:rustc-link-search=native={folder}");
    println!("cargo:rustc-link-lib=static=boundary");
}
