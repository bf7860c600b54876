//! The programs, run as processes, and what they print.

use std::io::{ErrorKind, Write};
use std::path::PathBuf;
use std::process::{Child, Command, Stdio};
use std::thread::sleep;
use std::time::Duration;
use sukhlent::Record;

/// A program of the repository, by its name.
#[derive(Clone, Copy)]
pub struct Program(pub &'static str);

impl Program {
    fn started(self) -> Child {
        let folder = PathBuf::from(env!("CARGO_MANIFEST_DIR")).join("../../target/bin");
        let path = folder.join(self.0);
        Command::new(&path)
            .stdin(Stdio::piped())
            .stdout(Stdio::piped())
            .spawn()
            .unwrap_or_else(|e| panic!("{}: {e}", path.display()))
    }

    /// What it prints for an input that comes in these pieces, with a pause after each.
    pub fn run_pieces<'a>(self, pieces: impl Iterator<Item = &'a [u8]>, pause: Duration) -> String {
        let mut child = self.started();
        let mut input = child.stdin.take().unwrap();
        for piece in pieces {
            match input.write_all(piece).and_then(|()| input.flush()) {
                Err(e) if e.kind() == ErrorKind::BrokenPipe => {
                    panic!("the program did not read to the end")
                }
                other => other.unwrap(),
            }
            if !pause.is_zero() {
                sleep(pause);
            }
        }
        drop(input);
        let out = child.wait_with_output().unwrap();
        assert!(out.status.success(), "{:?}", out.status);
        String::from_utf8(out.stdout).unwrap()
    }

    /// What it prints for an input.
    pub fn run(self, input: &[u8]) -> String {
        self.run_pieces(std::iter::once(input), Duration::ZERO)
    }
}

/// The print of a record.
pub fn printed(record: &Record) -> String {
    let mut text = String::from("qubit code neighbours used\n");
    for (q, (word, code)) in record.neighbours.iter().zip(&record.codes).enumerate() {
        let used = record.used >> q & 1;
        text += &format!("{q} {code} {word:016x} {used}\n");
    }
    text
}

/// The print of a refusal.
pub fn refused(k: u32) -> String {
    format!("refused {k}\n")
}

/// The line of a step: operation, a, b and value.
pub type Step = (&'static str, usize, usize, usize);

/// The lines of the steps, and the record, that the program prints for a job.
pub fn run_job(n: usize, steps: &[Step]) -> (Vec<String>, Record) {
    let mut text = format!("qubits\n{n}\nop a b value\n");
    for (op, a, b, value) in steps {
        text += &format!("{op} {a} {b} {value}\n");
    }
    let out = Program("job").run(text.as_bytes());
    let lines: Vec<String> = out.lines().map(String::from).collect();
    assert_eq!(lines.len(), 2 + steps.len() + n, "{out}");
    assert_eq!(lines[0], "step refusal outcome determined");
    assert_eq!(lines[1 + steps.len()], "qubit code neighbours used");
    let mut record = Record::default();
    for (q, line) in lines[2 + steps.len()..].iter().enumerate() {
        let fields: Vec<&str> = line.split(' ').collect();
        assert_eq!((fields.len(), fields[0]), (4, q.to_string().as_str()));
        record.codes.push(fields[1].parse().unwrap());
        let word = u64::from_str_radix(fields[2], 16).unwrap();
        record.neighbours.push(word);
        record.used |= match fields[3] {
            "0" => 0,
            "1" => 1 << q,
            other => panic!("{other} is not 0 or 1"),
        };
    }
    (lines[1..=steps.len()].to_vec(), record)
}
