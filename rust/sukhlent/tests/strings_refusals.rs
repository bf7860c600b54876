//! Refused texts and lists: every number, their order, and lengths of the buffers.

use crate::common::damage::{each_fault, each_pair, Fault, LIST_FAULTS};
use crate::common::reference::strings_text;
use crate::common::{list, random_rows, ListCall, Random, ReadCall};
use sukhlent::{read_strings, write_strings, GeneratorList, Refusal};

/// A list on 8 qubits.
fn base(seed: u64) -> GeneratorList {
    list(&random_rows(&mut Random::new(seed), 8))
}

/// The text of a list on 8 qubits, ready to be read.
fn text(seed: u64) -> ReadCall {
    ReadCall::on(strings_text(&base(seed)).as_bytes())
}

/// The place of a column of a line of 8 letters.
fn at(line: usize, column: usize) -> usize {
    line * 10 + column
}

/// Puts the letters of one line into another.
fn repeat(call: &mut ReadCall, from: usize, to: usize) {
    call.text.copy_within(at(from, 1)..at(from, 9), at(to, 1));
}

/// Each fault with its number, in checking order.
const FAULTS: [Fault<ReadCall>; 15] = [
    (1, |call| call.text[0] = b'X'),
    (1, |call| call.text[3] = b'y'),
    (1, |call| call.text[9] = b' '),
    (1, |call| call.text[79] = b'\r'),
    (1, |call| call.text.truncate(79)),
    (1, |call| call.text.push(b'\n')),
    (1, |call| call.text.rotate_left(1)),
    (4, |call| call.lengths[0] = 9),
    (4, |call| call.lengths[1] = 7),
    (4, |call| call.lengths[2] = 0),
    (4, |call| call.lengths = [64; 3]),
    (9, |call| {
        call.text[at(0, 1)..at(0, 9)].copy_from_slice(b"XXXXXXXX");
        call.text[at(1, 1)..at(1, 9)].copy_from_slice(b"ZXXXXXXX");
    }),
    (10, |call| repeat(call, 6, 7)),
    (10, |call| repeat(call, 7, 6)),
    (10, |call| call.text[at(7, 1)..at(7, 9)].fill(b'I')),
];

fn assert_refused(call: &ReadCall, number: u8, what: &str) {
    assert_eq!(call.due(), Err(number), "the fault itself: {what}");
    assert_eq!(call.read(), Err(number), "{what}: {call:?}");
}

#[test]
fn every_fault_of_a_text_gives_its_number() {
    for seed in 0..20 {
        each_fault(&FAULTS, || text(seed), assert_refused);
    }
}

#[test]
fn of_two_faults_of_a_text_the_earlier_number_is_given() {
    for seed in 0..20 {
        each_pair(&FAULTS, || text(seed), assert_refused);
    }
}

/// A text of so many lines of so many letters.
fn rectangle(lines: usize, letters: usize) -> ReadCall {
    let line = format!("+{}\n", "X".repeat(letters));
    ReadCall::on(line.repeat(lines).as_bytes())
}

#[test]
fn more_than_64_lines_give_2_after_the_whole_text() {
    for n in [65, 66, 100, 128, 256, 257, 300] {
        for lengths in [[n; 3], [64; 3], [0; 3]] {
            let call = ReadCall {
                lengths,
                ..rectangle(n, n)
            };
            assert_eq!((call.read(), call.due()), (Err(2), Err(2)), "{n}");
        }
        for (lines, letters) in [(n, n - 1), (n, 64), (n - 1, n), (64, n)] {
            let call = rectangle(lines, letters);
            assert_eq!(
                (call.read(), call.due()),
                (Err(1), Err(1)),
                "{lines} {letters}"
            );
        }
        let mut call = rectangle(n, n);
        let last = call.text.len() - 2;
        call.text[last] = b'x';
        assert_eq!(call.read(), Err(1));
    }
    assert_eq!(rectangle(64, 64).read(), Err(10));
}

#[test]
fn the_empty_text_gives_2_whatever_the_buffers() {
    for lengths in [[0; 3], [1; 3], [0, 1, 2], [64; 3]] {
        let text = Vec::new();
        assert_eq!(ReadCall { text, lengths }.read(), Err(2));
    }
}

#[test]
fn every_fault_of_a_list_gives_its_number() {
    let written = |call: &ListCall, number, what: &str| {
        let places = call.text_places();
        assert_eq!(call.write_due(places), Err(number), "{what}");
        assert_eq!(call.write_strings(places), Err(number), "{what}: {call:?}");
    };
    for seed in 0..20 {
        each_fault(&LIST_FAULTS, || ListCall::on(&base(seed)), written);
        each_pair(&LIST_FAULTS, || ListCall::on(&base(seed)), written);
    }
}

#[test]
fn other_lengths_of_the_text_give_4_before_all_faults_but_those_of_n() {
    for (number, damage) in LIST_FAULTS {
        for places in [0, 1, 63, 64, 72, 79, 81, 90, 80 + 256, 4224] {
            let mut call = ListCall::on(&base(1));
            damage(&mut call);
            if places == call.text_places() {
                continue;
            }
            let first = number.min(4);
            assert_eq!(call.write_strings(places), Err(first), "{number} {places}");
        }
    }
    for n in 1..=64 {
        let call = ListCall::on(&list(&random_rows(&mut Random::new(n), n as usize)));
        let places = call.text_places();
        for other in [0, places - 1, places + 1, n as usize, places - n as usize] {
            assert_eq!(call.write_strings(other), Err(4), "{n}");
        }
        assert!(call.write_strings(places).is_ok());
    }
}

#[test]
fn other_lengths_of_the_lists_buffers_give_4() {
    for n in 1..=64 {
        let text = strings_text(&list(&random_rows(&mut Random::new(n as u64), n)));
        for (k, other) in (0..3).flat_map(|k| [0, n - 1, n + 1, 65, n + 256].map(|m| (k, m))) {
            let mut call = ReadCall::on(text.as_bytes());
            call.lengths[k] = other;
            assert_eq!(call.read(), Err(4), "{n} {k} {other}");
        }
    }
}

#[test]
fn numbers_of_qubits_out_of_range_give_2() {
    let mut call = ListCall::on(&base(2));
    for n in [
        0,
        65,
        256,
        (1 << 32) - 1,
        1 << 32,
        1 << 63,
        u64::MAX - 1,
        u64::MAX,
    ] {
        call.n = n;
        for places in [0, 80, 4224] {
            assert_eq!(call.write_strings(places), Err(2), "{n}");
        }
    }
}

#[test]
fn the_safe_functions_say_why() {
    assert_eq!(read_strings("+X"), Err(Refusal::Form));
    assert_eq!(read_strings(""), Err(Refusal::Count));
    assert_eq!(read_strings(&"+\n".repeat(1000)), Err(Refusal::Form));
    assert_eq!(read_strings("+XI\n+ZI\n"), Err(Refusal::Anticommute));
    assert_eq!(read_strings("+XX\n-XX\n"), Err(Refusal::Dependent));
    let text = String::from_utf8(rectangle(65, 65).text).unwrap();
    assert_eq!(read_strings(&text), Err(Refusal::Count));
    let list = |n: usize, words: usize| GeneratorList {
        signs: vec![0; n],
        z: (0..words).map(|q| 1 << (q % 64)).collect(),
        x: vec![0; n],
    };
    assert_eq!(write_strings(&list(3, 2)), Err(Refusal::Length));
    assert_eq!(write_strings(&list(0, 0)), Err(Refusal::Count));
    assert_eq!(write_strings(&list(65, 65)), Err(Refusal::Count));
    assert_eq!(write_strings(&list(2, 2)).as_deref(), Ok("+ZI\n+IZ\n"));
}
