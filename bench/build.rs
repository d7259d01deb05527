//! Says where the static library stands, and that a new one wants a new build.

use std::env;

fn main() {
    let here = env::var("CARGO_MANIFEST_DIR").expect("cargo sets it");
    let folder = format!("{here}/../crates/bench_take/out");
    println!("cargo:rustc-link-search=native={folder}");
    println!("cargo:rerun-if-changed={folder}/libbench_take.a");
}
