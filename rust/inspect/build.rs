//! Links the static library that `tools/build inspect` writes.

use std::path::Path;

fn main() {
    let root = std::env::var_os("CARGO_MANIFEST_DIR").expect("cargo says where the package is");
    let folder = Path::new(&root).join("../../target/staticlib");
    if !folder.join("libinspect.a").is_file() {
        let folder = folder.display();
        eprintln!("no libinspect.a in {folder}\nrun `tools/build inspect` in the clone");
        std::process::exit(1);
    }
    let folder = folder.display();
    println!("cargo:rustc-link-search=native={folder}");
    println!("cargo:rustc-link-lib=static=inspect");
    println!("cargo:rerun-if-changed={folder}/libinspect.a");
}
