//! The programs that read a generator list, on lists of random states on 10 qubits: the least time of a run, process and
//! all, and the stack: the smallest limit, in steps of 4 KiB, under which a run prints what it prints without one.

#[path = "../../../sukhlent/tests/common/seeded/mod.rs"]
mod seeded;

use seeded::{list, random_rows, Random};
use std::io::Write;
use std::path::PathBuf;
use std::process::{Command, Stdio};
use std::time::Instant;

/// The number of qubits of the lists.
const N: usize = 10;
/// The number of runs of each program, in turns.
const RUNS: usize = 201;
/// The programs.
const PROGRAMS: [&str; 2] = ["reduce", "amplitudes"];

/// The path of a program.
fn path(name: &str) -> PathBuf {
    let folder = PathBuf::from(env!("CARGO_MANIFEST_DIR")).join("../../target/bin");
    folder.join(name)
}

/// The text of the list with a seed.
fn text(seed: u64) -> String {
    let given = list(&random_rows(&mut Random::new(seed), N));
    let mut out = String::from("sign z x\n");
    for j in 0..N {
        out += &format!(
            "{} {:016x} {:016x}\n",
            given.signs[j], given.z[j], given.x[j]
        );
    }
    out
}

/// What a command prints for a text; None where it does not end well.
fn printed(command: &mut Command, text: &str) -> Option<Vec<u8>> {
    let piped = command.stdin(Stdio::piped()).stdout(Stdio::piped());
    let mut child = piped.stderr(Stdio::null()).spawn().expect("a program");
    let mut input = child.stdin.take().expect("its input");
    let written = input.write_all(text.as_bytes());
    drop(input);
    let out = child.wait_with_output().expect("its output");
    (written.is_ok() && out.status.success()).then_some(out.stdout)
}

/// The smallest limit of the stack, in KiB, under which a program prints the same.
fn stack(name: &str) -> usize {
    let given = text(1);
    let due = printed(&mut Command::new(path(name)), &given);
    let runs = |limit: usize| {
        let limited = format!("ulimit -s {limit} && exec {}", path(name).display());
        printed(Command::new("sh").args(["-c", &limited]), &given) == due
    };
    (4..=8192)
        .step_by(4)
        .find(|&limit| runs(limit))
        .expect("8 MiB are enough")
}

fn main() {
    let mut times = [f64::INFINITY; 2];
    let mut lengths = [0; 2];
    for seed in 0..RUNS as u64 {
        let given = text(seed);
        for (k, name) in PROGRAMS.iter().enumerate() {
            let start = Instant::now();
            let out = printed(&mut Command::new(path(name)), &given).expect("an answer");
            times[k] = times[k].min(start.elapsed().as_secs_f64());
            lengths[k] = lengths[k].max(out.len());
        }
    }
    println!("| program | n | least time of a run | bytes printed, at most | stack |");
    println!("|---|---|---|---|---|");
    for (k, name) in PROGRAMS.iter().enumerate() {
        let (time, length) = (times[k] * 1e3, lengths[k]);
        println!(
            "| {name} | {N} | {time:.2} ms | {length} | {} KiB |",
            stack(name)
        );
    }
}
