//! What the static library needs of others: no allocator, nothing of the system; and its version.

use std::process::Command;

#[test]
fn the_library_calls_nothing_but_copies_and_fills() {
    let library = concat!(
        env!("CARGO_MANIFEST_DIR"),
        "/../../target/staticlib/libsukhlent.a"
    );
    let run = Command::new("nm").args(["-u", library]).output().unwrap();
    assert!(run.status.success());
    let text = String::from_utf8(run.stdout).unwrap();
    let names = text
        .lines()
        .filter_map(|line| line.trim().strip_prefix("U "));
    let names: Vec<&str> = names.collect();
    assert!(names.contains(&"memcpy"), "{text}");
    let known = ["memcpy", "memmove", "memset", "memcmp"];
    let other: Vec<_> = names.iter().filter(|name| !known.contains(name)).collect();
    assert!(other.is_empty(), "{other:?}");
}

#[test]
fn the_library_has_the_version_of_the_header() {
    let header = include_str!("../../../include/sukhlent.h");
    let said = |name: &str| {
        let line = header.lines().find_map(|line| line.strip_prefix(name));
        line.expect("the header defines it").trim().to_string()
    };
    let number: u32 = said("#define SUKHLENT_VERSION ").parse().unwrap();
    assert_eq!(sukhlent::raw::version(), number);
    let text = format!(
        "\"{}.{}.{}\"",
        number / 10_000,
        number / 100 % 100,
        number % 100
    );
    assert_eq!(said("#define SUKHLENT_VERSION_TEXT "), text);
}
