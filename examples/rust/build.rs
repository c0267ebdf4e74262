//! Names the static library to the linker: target/staticlib/liborbit_abi.a of the repository, made by `examples/library`.

use std::path::Path;

fn main() {
    let here = std::env::var("CARGO_MANIFEST_DIR").expect("cargo sets it");
    let folder = Path::new(&here).join("../../target/staticlib");
    let library = folder.join("liborbit_abi.a");
    assert!(
        library.exists(),
        "{} is missing; make it with: examples/library",
        library.display()
    );
    println!("cargo::rerun-if-changed={}", library.display());
    println!("cargo::rustc-link-search=native={}", folder.display());
    println!("cargo::rustc-link-lib=static=orbit_abi");
}
