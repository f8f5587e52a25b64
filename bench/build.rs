//! Links the proved library that `rt lib` wrote in `crates/bench`.

use std::path::PathBuf;

fn main() {
    let folder =
        PathBuf::from(std::env::var("CARGO_MANIFEST_DIR").unwrap()).join("../crates/bench/out");
    println!("cargo:rustc-link-search=native={}", folder.display());
    println!("cargo:rustc-link-lib=static=bench");
    println!(
        "cargo:rerun-if-changed={}",
        folder.join("libbench.a").display()
    );
}
