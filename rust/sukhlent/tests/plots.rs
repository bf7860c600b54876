//! The program `amplitudes`, run as a process: its tables against state vectors bit for bit, its refusals and their
//! order, and all of its input.

use crate::common::process::{refused, Program};
use crate::common::reference::plot_lines;
use crate::common::vectors::{signed_rows, state_of};
use crate::common::{list, mixed, random_rows, rows, Random};
use crate::exhaustive::record;
use simulator::State;
use std::collections::HashSet;
use std::time::Duration;
use sukhlent::{expand, reduce, GeneratorList};

const AMPLITUDES: Program = Program("amplitudes");
const REDUCE: Program = Program("reduce");

/// The bytes that the program reads at a time.
const BLOCK: usize = 65_536;

/// The text of a list.
fn text(list: &GeneratorList) -> String {
    let mut out = String::from("sign z x\n");
    for j in 0..list.n() {
        out += &format!("{} {:016x} {:016x}\n", list.signs[j], list.z[j], list.x[j]);
    }
    out
}

/// The text of these lines.
fn lines(given: &[(u8, u64, u64)]) -> String {
    text(&GeneratorList {
        signs: given.iter().map(|line| line.0).collect(),
        z: given.iter().map(|line| line.1).collect(),
        x: given.iter().map(|line| line.2).collect(),
    })
}

/// The table of a state vector.
fn table(state: &State) -> String {
    let mut out = String::from("y re im p\n");
    for (y, [re, im, p]) in plot_lines(state).into_iter().enumerate() {
        out += &format!("{y} {re:016x} {im:016x} {p:016x}\n");
    }
    out
}

/// The program prints for a list the table of the state that the list stabilizes.
fn assert_table(list: &GeneratorList, state: &State) {
    let given = text(list);
    assert_eq!(AMPLITUDES.run(given.as_bytes()), table(state), "{given}");
}

// ---- tables
#[test]
fn the_states_of_the_readings() {
    let (nought, one, less) = ("0000000000000000", "3ff0000000000000", "bff0000000000000");
    let (half, quarter) = ("3fe0000000000000", "3fd0000000000000");
    let nothing = [nought; 3];
    let plus = [one, nought, quarter];
    for (given, answers) in [
        (
            "-ZZ\n+XY\n",
            vec![nothing, [one, nought, half], [nought, one, half], nothing],
        ),
        (
            "-XX\n-ZZ\n",
            vec![nothing, [one, nought, half], [less, nought, half], nothing],
        ),
        ("-Y\n", vec![[one, nought, half], [nought, less, half]]),
        (
            "+XZ\n+ZX\n",
            vec![plus, plus, plus, [less, nought, quarter]],
        ),
        ("-Z\n", vec![nothing, [one, nought, one]]),
    ] {
        let mut due = String::from("y re im p\n");
        for (y, [re, im, p]) in answers.iter().enumerate() {
            due += &format!("{y} {re} {im} {p}\n");
        }
        let list: GeneratorList = given.parse().expect("a list");
        assert_eq!(AMPLITUDES.run(text(&list).as_bytes()), due, "{given}");
    }
}

#[test]
fn every_state_on_up_to_three_qubits() {
    for (n, count) in [(1, 6), (2, 60), (3, 1080)] {
        let mut seen = HashSet::new();
        for graph in 0..1 << (n * (n - 1) / 2) {
            for digits in 0..6usize.pow(n as u32) {
                // the codes 0, 2, 4, 6, 8, 10 of reduced records
                let mut held = record(n, graph, 0);
                for (q, code) in held.codes.iter_mut().enumerate() {
                    *code = 2 * (digits / 6usize.pow(q as u32) % 6) as u8;
                }
                let given = expand(&held).unwrap();
                let reduced = reduce(&given).unwrap();
                if seen.insert((reduced.neighbours, reduced.codes)) {
                    assert_table(&given, &state_of(&held));
                }
            }
        }
        assert_eq!(seen.len(), count, "states on {n} qubits");
    }
}

#[test]
fn seeded_lists_on_four_to_ten_qubits() {
    for seed in 0..90 {
        let mut random = Random::new(78_000 + seed);
        let n = 4 + seed as usize % 7;
        let given = list(&random_rows(&mut random, n));
        let state = state_of(&reduce(&given).unwrap());
        for row in signed_rows(&given) {
            assert!(state.is_stabilized(&row), "seed {seed}");
        }
        assert_table(&given, &state);
        // another list of the group has the same table
        let other = list(&mixed(&mut random, &rows(&given)));
        assert_table(&other, &state);
    }
}

// ---- refusals
/// Z on each qubit by itself.
fn all_z(n: usize) -> Vec<(u8, u64, u64)> {
    (0..n).map(|j| (0, 1 << j, 0)).collect()
}

#[track_caller]
fn refuses(number: u32, given: &str) {
    assert_eq!(AMPLITUDES.run(given.as_bytes()), refused(number), "{given}");
}

#[test]
fn refused_texts_are_those_of_reduce() {
    let example = lines(&[(1, 3, 0), (0, 2, 3)]);
    let mut texts: Vec<Vec<u8>> = vec![Vec::new(), b"sign z x\n".to_vec(), b"y re im p\n".to_vec()];
    for at in 0..example.len() {
        texts.push(example.as_bytes()[..at].to_vec());
        let mut other = example.as_bytes().to_vec();
        other[at] = 0xff;
        texts.push(other);
    }
    for given in [
        &[(0, 0, 2)][..],
        &[(2, 0, 1), (0, 4, 0)],
        &[(7, 0, 1), (0, 1, 0)],
        &[(0, 0, 1), (0, 1, 0)],
        &[(0, 0, 3), (1, 0, 3)],
        &[(0, 0, 1), (0, 1, 0), (0, 0, 0)],
        &[(0, 0, 0)],
    ] {
        texts.push(lines(given).into_bytes());
    }
    let mut numbers = HashSet::new();
    for given in texts {
        let answer = AMPLITUDES.run(&given);
        assert!(answer.starts_with("refused "), "{given:?}");
        assert_eq!(answer, REDUCE.run(&given), "{given:?}");
        numbers.insert(answer);
    }
    assert_eq!(numbers, [1, 2, 5, 6, 9, 10].map(refused).into());
}

#[test]
fn eleven_lines_are_refused_by_2_before_every_other_line() {
    let ten = AMPLITUDES.run(lines(&all_z(10)).as_bytes());
    assert_eq!(ten.lines().count(), 1025);
    for n in [11, 12, 63, 64, 65, 256, 1034] {
        let many: Vec<(u8, u64, u64)> = (0..n).map(|j| (0, 1 << (j % 64), 0)).collect();
        refuses(2, &lines(&many));
    }
    // a stray bit, a sign, no commutation, dependence
    for fault in [(0, 1 << 11, 0), (2, 0, 1), (0, 0, 1), (0, 1, 0)] {
        let mut many = all_z(11);
        many[10] = fault;
        refuses(2, &lines(&many));
        let mut few = all_z(10);
        few[9] = fault;
        assert_ne!(AMPLITUDES.run(lines(&few).as_bytes()), refused(2));
    }
    // the form comes first
    refuses(1, &format!("{}!", lines(&all_z(11))));
}

// ---- all of the input
#[test]
fn each_list_has_its_table() {
    let mut answers = HashSet::new();
    for k in 0..216u32 {
        let digits = [k % 6, k / 6 % 6, k / 36];
        let letters = [(0, 1), (1, 1), (1, 0)];
        let given: Vec<(u8, u64, u64)> = (digits.iter().enumerate())
            .map(|(q, d)| {
                let (z, x) = letters[*d as usize / 2];
                ((d % 2) as u8, z << q, x << q)
            })
            .collect();
        answers.insert(AMPLITUDES.run(lines(&given).as_bytes()));
    }
    assert_eq!(answers.len(), 216);
}

#[test]
fn every_block_is_read() {
    let line = format!("0 {:016x} {:016x}\n", 0, 0);
    for blocks in 1..=3 {
        let count = blocks * BLOCK / line.len() + 1;
        let given = format!("sign z x\n{}", line.repeat(count));
        assert!(given.len() > blocks * BLOCK);
        let part = &given.as_bytes()[..blocks * BLOCK];
        assert_eq!(AMPLITUDES.run(part), refused(1), "{blocks} blocks");
        assert_eq!(
            AMPLITUDES.run(given.as_bytes()),
            refused(2),
            "{blocks} blocks"
        );
        let fault = format!("{given}!");
        assert_eq!(
            AMPLITUDES.run(fault.as_bytes()),
            refused(1),
            "{blocks} blocks"
        );
    }
}

#[test]
fn what_comes_later_is_read() {
    let pieces = |pieces: &[&str]| {
        let bytes = pieces.iter().map(|piece| piece.as_bytes());
        AMPLITUDES.run_pieces(bytes, Duration::from_millis(100))
    };
    let (first, second) = (lines(&[(0, 0, 1)]), "1 0000000000000002 0000000000000000\n");
    let whole = format!("{first}{second}");
    assert_eq!(pieces(&[&first]).lines().count(), 3);
    assert_eq!(pieces(&[&first, second]), AMPLITUDES.run(whole.as_bytes()));
    assert_eq!(pieces(&[&first, second]).lines().count(), 5);
    assert_eq!(pieces(&[&first, "!"]), refused(1));
}
