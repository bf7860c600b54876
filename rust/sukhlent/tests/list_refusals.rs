//! Damaged generator lists: every number, and pairs of faults.

use crate::common::damage::{anticommute, each_fault, each_pair, flip, put, repeat, LIST_FAULTS};
use crate::common::{list, random_rows, ListCall, Random};

fn base(seed: u64) -> ListCall {
    ListCall::on(&list(&random_rows(&mut Random::new(seed), 8)))
}

fn assert_refused(call: &ListCall, number: u8, what: &str) {
    assert_eq!(call.due(), (number, number), "the fault itself: {what}");
    assert_eq!(call.check(), number, "{what}: {call:?}");
    assert_eq!(call.reduce(), Err(number), "{what}: {call:?}");
}

#[test]
fn every_fault_gives_its_number() {
    for seed in 0..20 {
        each_fault(&LIST_FAULTS, || base(seed), assert_refused);
    }
}

#[test]
fn of_two_faults_the_earlier_number_is_given() {
    for seed in 0..20 {
        each_pair(&LIST_FAULTS, || base(seed), assert_refused);
    }
}

#[test]
fn lines_are_judged_over_all_rows() {
    // The earlier line is broken by the last row, the later one by the first.
    for seed in 0..20 {
        let mut call = base(seed);
        put(&mut call.signs, 0, 2);
        flip(&mut call.x, 7, 8);
        assert_refused(&call, 5, "sign before stray bit");

        let mut call = base(seed);
        flip(&mut call.z, 0, 8);
        call.x.pop();
        assert_refused(&call, 4, "stray bit before length");

        let mut call = base(seed);
        anticommute(&mut call, 0, 1);
        put(&mut call.signs, 7, 2);
        assert_refused(&call, 6, "clash before sign");

        let mut call = base(seed);
        repeat(&mut call, 0, 1);
        anticommute(&mut call, 7, 6);
        assert_refused(&call, 9, "repeated row before clash");
    }
}

#[test]
fn the_answer_buffers_lengths_stand_before_all_faults_but_those_of_n() {
    for (number, damage) in LIST_FAULTS {
        for (neighbours, codes) in [(7, 8), (9, 8), (8, 0), (8, 64)] {
            let mut call = ListCall {
                neighbours,
                codes,
                ..base(1)
            };
            damage(&mut call);
            let first = number.min(4);
            assert_eq!(call.reduce(), Err(first), "{number} {neighbours} {codes}");
            assert_eq!(call.check(), number, "a check has no answer buffers");
        }
    }
}
