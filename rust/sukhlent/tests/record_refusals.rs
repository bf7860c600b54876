//! Damaged records: every number, and pairs of faults.

use crate::common::damage::{each_fault, each_pair, flip, put, record_faults, used_faults, Fault};
use crate::common::reference::expanded;
use crate::common::{random_record, random_used_record, use_up};
use crate::common::{Lengths, Random, RecordCall};

/// The faults of a record, and of the lengths of the answer buffers.
fn faults() -> Vec<Fault<RecordCall<Lengths>>> {
    let mut faults = [record_faults::<Lengths>(), used_faults()].concat();
    faults.push((4, |call| call.with.signs += 1));
    faults.push((4, |call| call.with.z = 0));
    faults.push((4, |call| call.with.x -= 1));
    faults
}

/// A random record of n vertices with any codes.
fn base(seed: u64, n: usize) -> RecordCall<Lengths> {
    RecordCall::on(&random_record(&mut Random::new(seed), n))
}

fn assert_refused(call: &RecordCall<Lengths>, number: u8, what: &str) {
    assert_eq!(call.due(), number, "the fault itself: {what}");
    assert_eq!(call.expand(), Err(number), "{what}: {call:?}");
}

#[test]
fn every_fault_gives_its_number() {
    for seed in 0..20 {
        assert!(base(seed, 8).expand().is_ok());
        each_fault(&faults(), || base(seed, 8), assert_refused);
    }
}

#[test]
fn of_two_faults_the_earlier_number_is_given() {
    for seed in 0..20 {
        each_pair(&faults(), || base(seed, 8), assert_refused);
    }
}

#[test]
fn lines_are_judged_over_all_vertices() {
    // The earlier line is broken by the last vertex, the later one by the first.
    let mut call = base(1, 8);
    flip(&mut call.neighbours, 0, 0);
    put(&mut call.codes, 7, 24);
    assert_refused(&call, 6, "loop before code");

    let mut call = base(1, 8);
    put(&mut call.codes, 0, 24);
    flip(&mut call.neighbours, 7, 9);
    assert_refused(&call, 5, "code before stray bit");

    let mut call = base(1, 8);
    flip(&mut call.neighbours, 0, 9);
    call.codes.pop();
    assert_refused(&call, 4, "stray bit before length");
}

#[test]
fn every_place_of_the_graph_is_compared() {
    for n in [1, 2, 63, 64] {
        let right = base(n as u64, n);
        for (a, b) in (0..n).flat_map(|a| (0..n).map(move |b| (a, b))) {
            let mut call = right.clone();
            flip(&mut call.neighbours, a, b as u32);
            assert_refused(&call, 7, "one direction of an edge");
            if a != b {
                flip(&mut call.neighbours, b, a as u32);
                assert!(call.expand().is_ok(), "{n} {a} {b}");
            }
        }
    }
}

#[test]
fn every_code_at_every_vertex() {
    for n in [1, 64] {
        let right = base(n as u64, n);
        for j in 0..n {
            for code in 0..=255 {
                let mut call = right.clone();
                call.codes[j] = code;
                let due = if code < 24 { 0 } else { 6 };
                assert_eq!(call.expand().err().unwrap_or(0), due, "{j} {code}");
            }
        }
    }
}

#[test]
fn stray_bits_of_every_number_of_vertices() {
    for n in 1..=64 {
        let right = base(n as u64, n);
        assert!(right.expand().is_ok());
        for bit in n as u32..64 {
            for j in [0, n - 1] {
                let mut call = right.clone();
                flip(&mut call.neighbours, j, bit);
                assert_refused(&call, 5, "a stray bit");
            }
        }
    }
}

#[test]
fn every_code_and_every_neighbour_of_every_used_vertex() {
    for n in [1, 2, 64] {
        let mut right = random_record(&mut Random::new(n as u64), n);
        for q in 0..n {
            use_up(&mut right, q, 8);
            for code in 0..=255 {
                let mut call = RecordCall::on(&right);
                call.codes[q] = code;
                let due = match code {
                    0 | 2 | 4 | 6 | 8 | 10 => 0,
                    0..24 => 7,
                    _ => 6,
                };
                assert_eq!(call.due(), due, "{q} {code}");
                assert_eq!(call.expand().err().unwrap_or(0), due, "{q} {code}");
            }
            for b in (0..n).filter(|&b| b != q) {
                let mut call = RecordCall::on(&right);
                flip(&mut call.neighbours, q, b as u32);
                flip(&mut call.neighbours, b, q as u32);
                assert_refused(&call, 7, "a used vertex with a neighbour");
            }
        }
    }
}

#[test]
fn used_bits_of_every_number_of_vertices() {
    for n in 1..=64 {
        let right = random_used_record(&mut Random::new(n as u64), n);
        for bit in n..64 {
            let mut call = RecordCall::on(&right);
            call.used |= 1 << bit;
            assert_refused(&call, 5, "a stray bit");
        }
        let all = u64::MAX >> (64 - n);
        let mut call = RecordCall::on(&right);
        (call.neighbours, call.codes, call.used) = (vec![0; n], vec![4; n], all);
        assert!(call.expand().is_ok(), "every vertex of {n} is used");
    }
}

#[test]
fn used_records_expand_as_others() {
    for seed in 0..300 {
        let mut random = Random::new(12_000 + seed);
        let n = 1 + random.below(64);
        let record = random_used_record(&mut random, n);
        let answer = RecordCall::on(&record).expand();
        assert_eq!(answer, Ok(expanded(&record)), "seed {seed}");
    }
}
