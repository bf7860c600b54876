//! Jobs that the generator writes: against a generator written from the request's words, and read
//! back line by line.

use crate::common::process::{printed, Program};
use crate::common::reference::{draw, steps, Step};
use crate::common::{GenerateCall, Random};
use sukhlent::{cz, gate, generate, measure, raw, Pauli, Record, Refusal};

/// A job text taken apart, by its form: one space between fields, a newline behind every line.
fn parsed(text: &str) -> (u64, Vec<Step>) {
    let mut lines = text.strip_suffix('\n').expect("a newline").split('\n');
    assert_eq!(lines.next(), Some("qubits"));
    let n = field(lines.next().expect("a line with n"));
    assert_eq!(lines.next(), Some("op a b value"));
    let line = |line: &str| {
        let fields: Vec<&str> = line.split(' ').collect();
        let [op, a, b, value] = fields[..] else {
            panic!("{line:?}");
        };
        let known = ["gate", "cz", "measure"].into_iter();
        let op = known.into_iter().find(|&known| known == op);
        let op = op.unwrap_or_else(|| panic!("{line:?}"));
        (op, field(a), field(b), field(value))
    };
    (n, lines.map(line).collect())
}

/// A field: one to three digits, no leading zero.
fn field(text: &str) -> u64 {
    let number: u64 = text.parse().expect("a number");
    assert_eq!(number.to_string(), text);
    assert!(number < 1000);
    number
}

/// Seeds of every kind.
fn seeds() -> impl Iterator<Item = u64> {
    let single = (0..64).map(|k| 1 << k);
    let mut random = Random::new(6);
    let others = (0..60).map(move |_| random.word() | 1);
    single.chain([u64::MAX, u64::MAX - 1]).chain(others)
}

#[test]
fn the_first_steps_of_seed_1() {
    assert_eq!(draw(1), 1_082_269_761);
    let text = "qubits\n64\nop a b value\n\
                gate 8 0 4\nmeasure 8 0 5\ngate 5 0 4\nmeasure 4 0 5\nmeasure 12 0 1\n";
    assert_eq!(generate(64, 5, 1).as_deref(), Ok(text));
}

#[test]
fn every_size_and_seed_against_the_reference() {
    for n in 1..=64 {
        for (k, seed) in seeds().enumerate().skip(n % 4).step_by(4) {
            let call = GenerateCall::of(n as u64, k as u64, seed);
            assert_eq!(call.generate(), call.due(), "{call:?}");
        }
    }
}

#[test]
fn the_longest_jobs_against_the_reference() {
    for seed in seeds() {
        for n in [1, 2, 10, 63, 64] {
            let call = GenerateCall::of(n, 4096, seed);
            let text = call.generate();
            assert_eq!(text, call.due(), "{call:?}");
            assert!(text.unwrap().len() <= raw::JOB_PLACES);
        }
    }
}

#[test]
fn no_line_is_longer_than_its_share_of_the_buffer() {
    let text = generate(64, 4096, 1).unwrap();
    let (head, lines) = text.split_at("qubits\n64\nop a b value\n".len());
    let longest = lines.split_inclusive('\n').map(str::len).max();
    assert_eq!((head.len(), longest), (23, Some(15)));
    assert_eq!(23 + 4096 * 15, raw::JOB_PLACES);
}

#[test]
fn every_text_reads_back_as_the_steps_drawn() {
    for (k, seed) in seeds().enumerate() {
        let (n, count) = (1 + k as u64 % 64, 4096 - 7 * k as u64);
        let text = GenerateCall::of(n, count, seed).generate().unwrap();
        assert_eq!(parsed(&text), (n, steps(n, count, seed)));
    }
}

#[test]
fn unused_fields_are_0_and_every_kind_of_step_comes() {
    let mut kinds = std::collections::BTreeMap::new();
    for (op, a, b, value) in parsed(&generate(64, 4096, 1).unwrap()).1 {
        assert!(a < 64 && b < 64, "{op} {a} {b} {value}");
        match op {
            "gate" => assert!(b == 0 && value < 24, "{op} {a} {b} {value}"),
            "cz" => assert!(a != b && value == 0, "{op} {a} {b} {value}"),
            _ => assert!(b == 0 && value < 6, "{op} {a} {b} {value}"),
        }
        *kinds.entry(op).or_insert(0) += 1;
    }
    assert_eq!(kinds.len(), 3);
    assert!(kinds.values().all(|&count| count > 1000), "{kinds:?}");
}

#[test]
fn no_step_is_a_job() {
    for n in 1..=64 {
        let text = format!("qubits\n{n}\nop a b value\n");
        assert_eq!(GenerateCall::of(n, 0, u64::MAX).generate(), Ok(text));
    }
}

/// What the program prints of a job: each step is done by a public call, from +Z on. Only
/// contradicted outcomes and steps that name a used qubit are refused.
fn answered(n: usize, steps: &[Step]) -> String {
    let mut record = Record {
        neighbours: vec![0; n],
        codes: vec![8; n],
        used: 0,
    };
    let mut text = String::from("step refusal outcome determined\n");
    for (k, &(op, a, b, value)) in steps.iter().enumerate() {
        let (a, b, value) = (a as usize, b as usize, value as u8);
        let answer = match op {
            "gate" => gate(&mut record, a, value).map(|()| (0, 0)),
            "cz" => cz(&mut record, a, b).map(|()| (0, 0)),
            _ => {
                let pauli = [Pauli::X, Pauli::Y, Pauli::Z][usize::from(value / 2)];
                let measured = measure(&mut record, pauli, a, value % 2);
                measured.map(|m| (m.outcome, u8::from(m.determined)))
            }
        };
        text += &match answer {
            Ok((outcome, determined)) => format!("{k} 0 {outcome} {determined}\n"),
            Err(refusal @ (Refusal::Contradicted | Refusal::Used)) => {
                format!("{k} {} 0 0\n", refusal.number())
            }
            Err(other) => panic!("{op} {a} {b} {value}: {other}"),
        };
    }
    text + &printed(&record)
}

#[test]
fn the_program_runs_every_step_as_the_calls_do() {
    for (n, count, seed) in [(1, 50, 3), (2, 300, 1), (7, 4096, 5), (64, 4096, 1)] {
        let text = generate(n, count, seed).unwrap();
        let (_, steps) = parsed(&text);
        let printed = Program("job").run(text.as_bytes());
        assert_eq!(printed, answered(n, &steps), "{n} {count} {seed}");
    }
}

// A measured qubit is used: behind step 659 of the job of seed 1 every step names a used qubit.
#[test]
fn the_job_of_seed_1_has_every_qubit_used_at_step_659() {
    let text = generate(64, 4096, 1).unwrap();
    let printed = Program("job").run(text.as_bytes());
    let lines: Vec<&str> = printed.lines().collect();
    let [_, steps @ ..] = &lines[..4097] else {
        panic!("{printed}");
    };
    let accepted = |line: &&str| line.split(' ').nth(1) == Some("0");
    assert_eq!(steps.iter().rposition(accepted), Some(659));
    assert!(steps[660..].iter().all(|line| line.contains(" 16 0 0")));
    assert!(lines[4098..].iter().all(|line| line.ends_with(" 1")));
    assert_eq!(lines[4098..].len(), 64);
}
