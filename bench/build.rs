//! Where `tools/setup bench_walk` puts the archive that src/bin/walk.rs links, beside the library's.

fn main() {
    println!("cargo:rerun-if-changed=../target/staticlib/libbench_walk.a");
    let here = std::env::var("CARGO_MANIFEST_DIR").expect("cargo sets it");
    println!("cargo:rustc-link-search=native={here}/../target/staticlib");
}
