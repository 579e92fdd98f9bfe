// Links the proved library, which stands in crates/lathepetal/out.

use std::path::Path;

fn main() {
    let top = std::env::var("CARGO_MANIFEST_DIR").expect("cargo says where the package stands");
    let directory = Path::new(&top).join("../crates/lathepetal/out");
    let archive = directory.join("liblathepetal.a");
    println!("cargo::rerun-if-changed={}", archive.display());
    if !archive.exists() {
        println!("cargo::error=there is no crates/lathepetal/out/liblathepetal.a: tools/library proves and builds it");
        return;
    }
    println!("cargo::rustc-link-search=native={}", directory.display());
    println!("cargo::rustc-link-lib=static=lathepetal");
}
