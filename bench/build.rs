//! Where `rt lib` in crates/embed leaves the proved run.

fn main() {
    let library = concat!(env!("CARGO_MANIFEST_DIR"), "/../crates/embed/out");
    println!("cargo:rustc-link-search=native={library}");
    println!("cargo:rerun-if-changed={library}/libembed.a");
}
