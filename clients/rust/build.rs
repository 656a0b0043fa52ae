//! Names the archive to link, which `tests/build archive` makes.
fn main() {
    let archive = format!("{}/../../target/staticlib", env!("CARGO_MANIFEST_DIR"));
    println!("cargo:rustc-link-search=native={archive}");
    println!("cargo:rustc-link-lib=static=stitchbarrow");
    println!("cargo:rerun-if-changed={archive}/libstitchbarrow.a");
}
