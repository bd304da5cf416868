//! Links the proved static library.

use std::path::Path;

fn main() {
    let here = std::env::var("CARGO_MANIFEST_DIR").expect("cargo sets it");
    let folder = Path::new(&here).join("../../target/staticlib");
    let library = folder.join("libfunnelivy.a");
    assert!(
        library.exists(),
        "target/staticlib/libfunnelivy.a is missing: run `host/staticlib` at the repository's root"
    );
    println!("cargo:rustc-link-search=native={}", folder.display());
    println!("cargo:rustc-link-lib=static=funnelivy");
    println!("cargo:rerun-if-changed={}", library.display());
}
