//! Damaged arguments of values: every number, pairs of faults, and every stray bit of a row.

use crate::common::damage::Fault;
use crate::common::reading::{self, Reading};
use crate::common::reference::row_value;
use crate::common::{Letters, Random, RecordCall};

type Call = RecordCall<Letters>;

impl Reading for Letters {
    type Answer = u8;

    fn random(random: &mut Random, n: usize) -> Letters {
        let [z, x] = [0, 1].map(|_| random.word() >> (64 - n));
        Letters { z, x }
    }

    fn put_bit(&mut self, random: &mut Random) {
        let word = match random.below(2) {
            0 => &mut self.z,
            _ => &mut self.x,
        };
        *word = 1 << random.below(64);
    }

    fn faults() -> Vec<Fault<Call>> {
        vec![
            (5, |call| call.with.z = 1 << 8),
            (5, |call| call.with.x |= 1 << 8),
            (5, |call| call.with.z |= 1 << 63),
            (5, |call| call.with.x = 1 << 63 | 0b101),
            (5, |call| call.with.z = u64::MAX),
            (5, |call| call.with.x = u64::MAX),
        ]
    }

    fn answer(call: &Call) -> Result<u8, u8> {
        call.expectation()
    }

    fn due(call: &Call) -> u8 {
        call.due()
    }

    fn expected(call: &Call) -> u8 {
        row_value(&call.record(), call.with.z, call.with.x)
    }
}

#[test]
fn every_fault_gives_its_number() {
    reading::judge_faults::<Letters>();
}

#[test]
fn of_two_faults_the_earlier_number_is_given() {
    reading::judge_pairs::<Letters>();
}

#[test]
fn every_bit_of_both_words() {
    for n in 1..=64 {
        let right: Call = reading::base(n as u64, n);
        let Letters { z, x } = right.with;
        for bit in (0..64).map(|q| 1u64 << q) {
            for (z, x) in [
                (bit, 0),
                (0, bit),
                (z | bit, x),
                (z, x | bit),
                (z | bit, x | bit),
            ] {
                let with = Letters { z, x };
                let call = Call {
                    with,
                    ..right.clone()
                };
                let inside = bit.trailing_zeros() < n as u32;
                assert_eq!(reading::assert_judged(&call), if inside { 0 } else { 5 });
            }
        }
    }
}

#[test]
fn a_row_may_have_letters_at_used_qubits() {
    reading::judge_used::<Letters>(64);
}

#[test]
fn seeded_damage_against_the_reference() {
    reading::judge_damage::<Letters>(61_000, 9);
}
