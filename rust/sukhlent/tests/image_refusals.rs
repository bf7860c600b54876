//! Damaged images: every number, pairs of faults, and what an accepted one leaves alone.

use crate::common::damage::{damage_record, each_fault, each_pair, record_faults, Fault};
use crate::common::local::complemented_record;
use crate::common::{random_record, ImageLengths, Random, RecordCall};
use sukhlent::{image, Record, Refusal};

type Call = RecordCall<ImageLengths>;

/// The faults of a record, and of the lengths of the answer buffers.
fn faults() -> Vec<Fault<Call>> {
    let mut faults = record_faults::<ImageLengths>();
    faults.push((4, |call| call.with.image += 1));
    faults.push((4, |call| call.with.image = 0));
    faults.push((4, |call| call.with.signs -= 1));
    faults.push((4, |call| call.with.signs = 64));
    faults.push((4, |call| call.with.list = 95));
    faults.push((4, |call| call.with.list = 97));
    faults
}

/// A random graph with signs, its record complemented at a few vertices.
fn accepted(seed: u64, n: usize) -> Record {
    let mut random = Random::new(seed);
    let mut record = random_record(&mut random, n);
    record.codes.fill_with(|| 2 * random.below(2) as u8);
    for _ in 0..random.below(2 * n) {
        record = complemented_record(&record, random.below(n));
    }
    record
}

/// A random graph with one code other than 0.
fn with_code(seed: u64, n: usize, vertex: usize, code: u8) -> Record {
    let mut record = random_record(&mut Random::new(seed), n);
    record.codes.fill(0);
    record.codes[vertex] = code;
    record
}

/// Records of 8 vertices that the image rule accepts, refuses with 11 and with 12.
fn bases(seed: u64) -> [(Record, u8); 3] {
    [
        (accepted(seed, 8), 0),
        (with_code(seed, 8, seed as usize % 8, 8), 11),
        (with_code(seed, 8, seed as usize % 8, 4), 12),
    ]
}

fn assert_refused(call: &Call, number: u8, what: &str) {
    assert_eq!(call.due(), Some(number), "the fault itself: {what}");
    assert_eq!(call.image(), Err(number), "{what}: {call:?}");
}

/// The image rule alone gives the number.
fn assert_judged(call: &Call, number: u8) {
    assert_eq!(call.due(), None, "{call:?}");
    assert_eq!(call.image().err().unwrap_or(0), number, "{call:?}");
}

#[test]
fn every_fault_gives_its_number() {
    for (record, number) in (0..20).flat_map(bases) {
        let base = || RecordCall::image_of(&record);
        assert_judged(&base(), number);
        each_fault(&faults(), base, assert_refused);
    }
}

#[test]
fn of_two_faults_the_earlier_number_is_given() {
    for (record, _) in (0..20).flat_map(bases) {
        each_pair(&faults(), || RecordCall::image_of(&record), assert_refused);
    }
}

#[test]
fn one_hadamard_gives_11_and_one_phase_gate_12_and_nothing_is_written() {
    for (n, v) in (1..=64).flat_map(|n| (0..n).map(move |v| (n, v))) {
        // Code 8 sends Z to X, and no other vertex has C = 1; code 4 sends X to Y.
        let hadamard = with_code(v as u64, n, v, 8);
        assert_judged(&RecordCall::image_of(&hadamard), 11);
        let mut phase_gate = with_code(v as u64, n, v, 4);
        assert_judged(&RecordCall::image_of(&phase_gate), 12);
        if n > 1 {
            phase_gate.codes[(v + 1) % n] = 8;
            assert_judged(&RecordCall::image_of(&phase_gate), 11);
        }
    }
}

#[test]
fn wrong_places_for_the_image_or_the_signs_give_4() {
    for n in [1, 2, 8, 63, 64] {
        let right = RecordCall::image_of(&accepted(n as u64, n));
        assert_judged(&right, 0);
        let lengths = [0, 1, n - 1, n + 1, 64, 65, 96, n + 256].into_iter();
        for length in lengths.filter(|&length| length != n) {
            for (image, signs) in [(length, n), (n, length), (length, length)] {
                let mut call = right.clone();
                (call.with.image, call.with.signs) = (image, signs);
                assert_refused(&call, 4, "lengths");
            }
        }
    }
}

#[test]
fn wrong_places_for_the_list_give_4_and_nothing_is_written() {
    for n in [1, 3, 64] {
        let mut call = RecordCall::image_of(&accepted(n as u64, n));
        for places in (0..200).chain([256, 96 + 256]).filter(|&p| p != 96) {
            call.with.list = places;
            assert_refused(&call, 4, "places for the list");
        }
    }
}

#[test]
fn what_the_answer_buffers_held_does_not_matter() {
    // Counts from 0 to 96: the places past them keep their values.
    let edges = |count: usize| {
        let mut record = Record {
            neighbours: (0..64).map(|q: u64| 1 << (q ^ 1)).collect(),
            codes: vec![0; 64],
            used: 0,
        };
        record.codes[..2 * count].fill(8);
        record
    };
    for count in 0..=32 {
        let answer = RecordCall::image_of(&edges(count)).image().unwrap();
        assert_eq!(answer.complementations.len(), 3 * count);
    }
    for seed in 0..300 {
        let given = accepted(seed, 1 + Random::new(seed).below(64));
        // The safe call lends zeros, the guarded one a pattern.
        let answer = RecordCall::image_of(&given).image();
        let safe = image(&given).map_err(Refusal::number);
        assert_eq!(answer, safe, "seed {seed}");
        assert!(answer.is_ok(), "seed {seed}");
    }
}

#[test]
fn seeded_damage_against_the_reference() {
    let mut counts = [0; 13];
    for seed in 0..6000 {
        let mut random = Random::new(50_000 + seed);
        let n = 1 + random.below(8);
        let mut call = RecordCall::image_of(&accepted(seed, n));
        for _ in 0..random.below(3) {
            damage_record(&mut random, &mut call);
        }
        match random.below(24) {
            0 => call.with.image = random.below(10),
            1 => call.with.signs = random.below(10),
            2 => call.with.list = random.below(200),
            _ => (),
        }
        let number = call.image().err().unwrap_or(0);
        call.assert_due(number);
        counts[usize::from(number)] += 1;
    }
    let all = [0, 2, 4, 5, 6, 7, 11, 12];
    assert!(all.iter().all(|&k| counts[k] > 50), "{counts:?}");
}
