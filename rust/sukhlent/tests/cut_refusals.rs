//! Damaged cuts: every number, pairs of faults, and every stray bit of a side.

use crate::common::damage::Fault;
use crate::common::reading::{self, Reading};
use crate::common::reference::cut_rank;
use crate::common::{Random, RecordCall, Side};

type Call = RecordCall<Side>;

impl Reading for Side {
    type Answer = u64;

    fn random(random: &mut Random, n: usize) -> Side {
        Side(random.word() >> (64 - n))
    }

    fn put_bit(&mut self, random: &mut Random) {
        *self = Side(1 << random.below(64));
    }

    fn faults() -> Vec<Fault<Call>> {
        vec![
            (5, |call| call.with = Side(1 << 8)),
            (5, |call| call.with = Side(1 << 63 | 0b101)),
            (5, |call| call.with = Side(u64::MAX)),
        ]
    }

    fn answer(call: &Call) -> Result<u64, u8> {
        call.cut()
    }

    fn due(call: &Call) -> u8 {
        call.due()
    }

    fn expected(call: &Call) -> u64 {
        cut_rank(&call.neighbours, call.with.0)
    }
}

#[test]
fn every_fault_gives_its_number() {
    reading::judge_faults::<Side>();
}

#[test]
fn of_two_faults_the_earlier_number_is_given() {
    reading::judge_pairs::<Side>();
}

#[test]
fn every_bit_of_a_side() {
    for n in 1..=64 {
        let right: Call = reading::base(n as u64, n);
        for bit in 0..64 {
            for side in [1 << bit, right.with.0 | 1 << bit] {
                let with = Side(side);
                let call = Call {
                    with,
                    ..right.clone()
                };
                assert_eq!(reading::assert_judged(&call), if bit < n { 0 } else { 5 });
            }
        }
    }
}

#[test]
fn a_side_may_mark_used_qubits() {
    reading::judge_used::<Side>(64);
}

#[test]
fn seeded_damage_against_the_reference() {
    reading::judge_damage::<Side>(60_000, 9);
}
