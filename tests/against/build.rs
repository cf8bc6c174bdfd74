//! Says where the static library of the proved judge lies. Only the program that links it needs it to be there.

use std::path::Path;

fn main() {
    let root = std::env::var("CARGO_MANIFEST_DIR").expect("cargo sets it");
    let folder = Path::new(&root).join("../../target/staticlib");
    println!("cargo:rustc-link-search=native={}", folder.display());
    println!(
        "cargo:rerun-if-changed={}",
        folder.join("liboutside.a").display()
    );
}
