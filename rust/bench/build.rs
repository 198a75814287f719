//! Where the proved static library stands: target/jirvaldo of the repository. And how far the code is moved: BENCH_PAD bytes, 0 by default.

use std::env;

fn main() {
    let root = env::var("CARGO_MANIFEST_DIR").expect("cargo names the package's folder") + "/../..";
    println!("cargo:rustc-link-search=native={}/target/jirvaldo", root);
    println!(
        "cargo:rerun-if-changed={}/target/jirvaldo/libjirvaldo.a",
        root
    );
    let pad = env::var("BENCH_PAD").unwrap_or_else(|_| "0".into());
    println!("cargo:rustc-env=BENCH_PAD={}", pad);
    println!("cargo:rerun-if-env-changed=BENCH_PAD");
}
