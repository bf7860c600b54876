//! The C and C++ examples, compiled with the headers and the static library, print their stored outputs.

use std::path::{Path, PathBuf};
use std::process::Command;

/// The root of the repository.
fn root() -> PathBuf {
    Path::new(env!("CARGO_MANIFEST_DIR")).join("../..")
}

/// Compiles examples/c/NAME.c.
fn compiled(name: &str) -> PathBuf {
    compiled_by("cc", &["-std=c99"], &format!("c/{name}.c"), name)
}

/// Compiles a source below examples with a compiler and these words.
fn compiled_by(compiler: &str, words: &[&str], source: &str, name: &str) -> PathBuf {
    let root = root();
    let program = Path::new(env!("CARGO_TARGET_TMPDIR")).join(name);
    let compiled = Command::new(compiler)
        .args(words)
        .args(["-pedantic", "-Wall", "-Wextra", "-Werror", "-I"])
        .arg(root.join("include"))
        .arg(root.join("examples").join(source))
        .arg(root.join("target/staticlib/libsukhlent.a"))
        .arg("-o")
        .arg(&program)
        .output()
        .expect("the compiler runs");
    let messages = String::from_utf8_lossy(&compiled.stderr);
    assert!(compiled.status.success(), "{messages}");
    assert_eq!(messages, "", "no warnings");
    program
}

/// Runs a program with these arguments: the status, what it prints, and its messages.
fn run(program: &Path, arguments: &[&str]) -> (Option<i32>, String, String) {
    let mut command = Command::new(program);
    let run = command.args(arguments).output().expect("the example runs");
    let [printed, messages] = [run.stdout, run.stderr].map(|text| String::from_utf8(text).unwrap());
    (run.status.code(), printed, messages)
}

/// What is stored in examples/c/NAME.out.
fn stored(name: &str) -> String {
    std::fs::read_to_string(root().join(format!("examples/c/{name}.out"))).unwrap()
}

/// Compiles and runs examples/c/NAME.c, and compares with examples/c/NAME.out.
fn assert_prints_its_stored_output(name: &str) {
    let answer = run(&compiled(name), &[]);
    assert_eq!(answer, (Some(0), stored(name), String::new()));
}

#[test]
fn bell_prints_its_stored_output() {
    assert_prints_its_stored_output("bell");
}

#[test]
fn clusters_prints_its_stored_output() {
    assert_prints_its_stored_output("clusters");
}

#[test]
fn cut_prints_its_stored_output() {
    assert_prints_its_stored_output("cut");
}

#[test]
fn durable_prints_its_stored_output() {
    assert_prints_its_stored_output("durable");
}

#[test]
fn generate_prints_its_stored_output_and_says_what_is_refused() {
    let program = compiled("generate");
    let answer = run(&program, &["64", "12", "1"]);
    assert_eq!(answer, (Some(0), stored("generate"), String::new()));
    let refused = |number: u8| (Some(1), String::new(), format!("refused {number}\n"));
    assert_eq!(run(&program, &["64", "4097", "1"]), refused(15));
    assert_eq!(run(&program, &["65", "4096", "1"]), refused(2));
    assert_eq!(run(&program, &["64", "4096", "0"]), refused(6));
    assert_eq!(run(&program, &["64", "4096", "one"]).0, Some(2));
    assert_eq!(run(&program, &["64", "4096"]).0, Some(2));
}

#[test]
fn record_prints_its_stored_output() {
    assert_prints_its_stored_output("record");
}

#[test]
fn record_in_c_plus_plus_prints_its_stored_output_with_spans_of_its_own_and_of_the_standard() {
    let due = std::fs::read_to_string(root().join("examples/cpp/record.out")).unwrap();
    for standard in ["c++17", "c++20"] {
        let words = [&format!("-std={standard}"), "-Wshadow", "-Wconversion"];
        let program = compiled_by("c++", &words, "cpp/record.cpp", standard);
        assert_eq!(run(&program, &[]), (Some(0), due.clone(), String::new()));
    }
}

#[test]
fn without_exceptions_a_refusal_is_read_and_its_value_ends_the_program() {
    let words = ["-std=c++17", "-fno-exceptions"];
    let program = compiled_by("c++", &words, "cpp/quiet.cpp", "quiet");
    let due = "refused 8\n".to_string();
    assert_eq!(run(&program, &[]), (Some(0), due.clone(), String::new()));
    assert_eq!(run(&program, &["value"]), (None, due, String::new()));
}

#[test]
fn an_answer_that_nobody_looks_at_or_that_is_gone_does_not_compile() {
    let lines = [
        ("bell.gate(0, 0).value();", true),
        ("bell.gate(0, 0);", false),
        (
            "for (int code : bell.equivalent(bell).value().choice) (void)code;",
            true,
        ),
        (
            "for (int code : bell.equivalent(bell)->choice) (void)code;",
            false,
        ),
    ];
    for (line, compiles) in lines {
        let source = Path::new(env!("CARGO_TARGET_TMPDIR")).join("looked_at.cpp");
        let start =
            "#include <sukhlent.hpp>\nint main() { auto bell = sukhlent::Record::zeros(2).value();";
        std::fs::write(&source, format!("{start} {line} }}\n")).unwrap();
        let compiler = Command::new("c++")
            .args(["-std=c++17", "-Wall", "-Werror", "-fsyntax-only", "-I"])
            .arg(root().join("include"))
            .arg(&source)
            .output();
        assert_eq!(
            compiler.expect("c++ runs").status.success(),
            compiles,
            "{line}"
        );
    }
}

#[test]
fn recipes_prints_its_stored_output() {
    assert_prints_its_stored_output("recipes");
}

#[test]
fn in_place_prints_its_stored_output() {
    assert_prints_its_stored_output("in_place");
}

#[test]
fn ring_prints_its_stored_output() {
    assert_prints_its_stored_output("ring");
}

#[test]
fn store_prints_its_stored_output() {
    assert_prints_its_stored_output("store");
}

#[test]
fn two_groups_prints_its_stored_output() {
    assert_prints_its_stored_output("two_groups");
}

#[test]
fn session_prints_its_stored_output() {
    assert_prints_its_stored_output("session");
}

#[test]
fn strings_prints_its_stored_output() {
    assert_prints_its_stored_output("strings");
}

#[test]
fn equivalent_prints_its_stored_output() {
    assert_prints_its_stored_output("equivalent");
}

#[test]
fn run_prints_its_stored_output() {
    assert_prints_its_stored_output("run");
}

#[test]
fn parity_prints_its_stored_output() {
    assert_prints_its_stored_output("parity");
}

#[test]
fn source_prints_its_stored_output() {
    assert_prints_its_stored_output("source");
}

/// By runs it prints what it does by single calls.
#[test]
fn source_run_prints_its_stored_output() {
    assert_prints_its_stored_output("source_run");
    assert_eq!(stored("source_run"), stored("source"));
}

#[test]
fn vector_prints_its_stored_output() {
    assert_prints_its_stored_output("vector");
}

/// The names of the calls that the header declares, without the prefix.
fn calls() -> Vec<String> {
    let header = std::fs::read_to_string(root().join("include/sukhlent.h")).unwrap();
    let declared = header.lines().filter(|line| line.starts_with("uint"));
    let names = declared.filter_map(|line| line.split("sukhlent_").nth(1)?.split_once('('));
    names.map(|(name, _)| name.to_string()).collect()
}

/// The text of all files of a folder with this ending.
fn sources(folder: &str, ending: &str) -> String {
    let files = std::fs::read_dir(root().join(folder)).unwrap();
    let paths = files.map(|file| file.unwrap().path());
    let sources = paths.filter(|path| path.extension().is_some_and(|e| e == ending));
    sources
        .map(|path| std::fs::read_to_string(path).unwrap())
        .collect()
}

/// Each call that the table of calls of docs/ENGINE.md has, with the programs that it names for it.
fn shown_in() -> Vec<(String, Vec<String>)> {
    let text = std::fs::read_to_string(root().join("docs/ENGINE.md")).unwrap();
    let lines = text
        .lines()
        .skip_while(|line| !line.ends_with("| shown in |"));
    let rows = lines.skip(2).take_while(|line| line.starts_with('|'));
    let words = |cell: &str| {
        cell.trim()
            .split(", ")
            .map(String::from)
            .collect::<Vec<_>>()
    };
    let cells = rows.map(|row| row.split('|').map(words).collect::<Vec<_>>());
    cells
        .flat_map(|row| {
            row[1]
                .clone()
                .into_iter()
                .map(move |call| (call, row[3].clone()))
        })
        .collect()
}

#[test]
fn the_table_of_calls_names_a_program_for_each() {
    let mut named: Vec<String> = shown_in().into_iter().map(|(call, _)| call).collect();
    let mut declared = calls();
    named.sort();
    declared.sort();
    assert_eq!(named, declared);
    for (call, programs) in shown_in() {
        let name = format!("sukhlent_{call}(");
        for program in programs.iter().filter(|program| *program != "orbits") {
            let source = root().join(format!("examples/c/{program}.c"));
            let text = std::fs::read_to_string(source).unwrap();
            assert!(text.contains(&name), "{call} in {program}.c");
        }
    }
}

#[test]
fn every_call_has_an_example_in_c_and_in_rust() {
    let c = sources("examples/c", "c");
    let rust = sources("rust/sukhlent/examples", "rs");
    assert_eq!(calls().len(), 39);
    for call in calls() {
        assert!(c.contains(&format!("sukhlent_{call}(")), "{call} in C");
        let name = match call.strip_prefix("group_") {
            Some(own) => format!("er.{}", own), // of the handles lower and upper
            None => call.clone(),
        };
        let name = if name.ends_with("return") {
            name + "_to"
        } else {
            name
        };
        assert!(rust.contains(&format!("{name}(")), "{call} in Rust");
    }
}
