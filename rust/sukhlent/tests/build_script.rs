//! What the build script says where the library is missing.

#[path = "../build.rs"]
mod build;

use std::path::Path;

#[test]
fn a_missing_library_is_told_with_what_to_run() {
    let nowhere = Path::new(env!("CARGO_MANIFEST_DIR")).join("src");
    let message = build::found(&nowhere).unwrap_err();
    assert!(message.contains(&format!("no libsukhlent.a in {}", nowhere.display())));
    assert!(message.contains("run `tools/build sukhlent`"));
    assert!(message.contains("SUKHLENT_LIB"));
}

#[test]
fn the_library_of_the_clone_is_found() {
    let clone = Path::new(env!("CARGO_MANIFEST_DIR")).join("../../target/staticlib");
    assert_eq!(build::found(&clone), Ok(clone.as_path()));
}
