//! Every public item of the crate has an example, which is run as a test of the documentation.

use std::fs;
use std::path::{Path, PathBuf};

/// The public items of a source file, each with the comment above it.
fn items(text: &str) -> Vec<(&str, String)> {
    let mut found = Vec::new();
    let mut comment = String::new();
    for line in text.lines().map(str::trim) {
        if let Some(words) = line.strip_prefix("///") {
            comment += words;
        } else if line.starts_with("pub ") && !line.starts_with("pub use") {
            found.push((line, std::mem::take(&mut comment)));
        } else if !line.starts_with("#[") {
            comment.clear();
        }
    }
    found
}

/// Whether a line declares an item: no field, and nothing of the C interface.
fn is_item(line: &str) -> bool {
    let kinds = ["fn ", "struct ", "enum ", "const ", "type "];
    let rest = line.trim_start_matches("pub ");
    kinds.iter().any(|kind| rest.starts_with(kind)) && !rest.starts_with("fn sukhlent_")
}

/// The source files of a folder.
fn files(folder: &Path) -> Vec<PathBuf> {
    let entries = fs::read_dir(folder).unwrap();
    let paths = entries.map(|entry| entry.unwrap().path());
    paths.filter(|path| path.is_file()).collect()
}

#[test]
fn every_public_item_has_an_example() {
    let folder = Path::new(env!("CARGO_MANIFEST_DIR")).join("src");
    let mut seen = 0;
    for path in [files(&folder), files(&folder.join("raw"))].concat() {
        let text = fs::read_to_string(&path).unwrap();
        for (line, comment) in items(&text).iter().filter(|(line, _)| is_item(line)) {
            let named = line.contains("$name"); // its example is made by the macro around it
            assert!(
                named || comment.contains("```"),
                "{}: {line}",
                path.display()
            );
            seen += 1;
        }
    }
    assert!(seen > 40, "{seen} items");
}
