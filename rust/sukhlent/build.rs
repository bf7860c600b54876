//! Links the static library that `tools/build sukhlent` writes, or the one in the folder that
//! SUKHLENT_LIB names, as PREFIX/lib after `tools/install PREFIX`.

use std::path::{Path, PathBuf};

#[allow(dead_code)]
fn main() {
    println!("cargo:rerun-if-env-changed=SUKHLENT_LIB");
    let named = std::env::var_os("SUKHLENT_LIB").map(PathBuf::from);
    let root = std::env::var_os("CARGO_MANIFEST_DIR").expect("cargo says where the package is");
    let clone = Path::new(&root).join("../../target/staticlib");
    match found(&named.unwrap_or(clone)) {
        Ok(folder) => {
            let folder = folder.display();
            println!("cargo:rustc-link-search=native={folder}");
            println!("cargo:rustc-link-lib=static=sukhlent");
            println!("cargo:rerun-if-changed={folder}/libsukhlent.a");
        }
        Err(message) => {
            eprintln!("{message}");
            std::process::exit(1);
        }
    }
}

/// The folder, where it has the library; otherwise what to run.
pub fn found(folder: &Path) -> Result<&Path, String> {
    if folder.join("libsukhlent.a").is_file() {
        return Ok(folder);
    }
    Err(format!(
        "no libsukhlent.a in {}\nrun `tools/build sukhlent` in the clone, which proves the engine \
         and writes it, or name the folder of an installed one in SUKHLENT_LIB",
        folder.display()
    ))
}
