//! Refused calls on amplitudes: every number, pairs of faults, every stray bit of a word, and what the
//! lent floats hold.

use crate::common::damage::Fault;
use crate::common::reading::{self, Reading};
use crate::common::reference::{plot_lines, Bits};
use crate::common::vectors::state_of;
use crate::common::{At, Random, RecordCall};
use sukhlent::{raw, Record, Refusal};

type Call = RecordCall<At>;

impl Reading for At {
    type Answer = Bits;

    fn random(random: &mut Random, n: usize) -> At {
        At(random.word() >> (64 - n))
    }

    fn put_bit(&mut self, random: &mut Random) {
        *self = At(1 << random.below(64));
    }

    fn faults() -> Vec<Fault<Call>> {
        vec![
            (5, |call| call.with = At(1 << 8)),
            (5, |call| call.with = At(1 << 63 | 0b101)),
            (5, |call| call.with = At(u64::MAX)),
        ]
    }

    fn answer(call: &Call) -> Result<Bits, u8> {
        call.amplitude()
    }

    fn due(call: &Call) -> u8 {
        call.due()
    }

    /// The line of the state's vector, so that the vertices must be few.
    fn expected(call: &Call) -> Bits {
        plot_lines(&state_of(&call.record()))[call.with.0 as usize]
    }
}

#[test]
fn every_fault_gives_its_number() {
    reading::judge_faults::<At>();
}

#[test]
fn of_two_faults_the_earlier_number_is_given() {
    reading::judge_pairs::<At>();
}

#[test]
fn a_word_may_have_bits_at_used_qubits() {
    reading::judge_used::<At>(6);
}

#[test]
fn every_bit_of_a_word() {
    for n in 1..=64 {
        let right: Call = reading::base(n as u64, n);
        for bit in 0..64 {
            for y in [1 << bit, right.with.0 | 1 << bit] {
                let with = At(y);
                let call = Call {
                    with,
                    ..right.clone()
                };
                let number = if bit < n { 0 } else { 5 };
                assert_eq!(call.due(), number);
                assert_eq!(call.amplitude().err().unwrap_or(0), number, "{call:?}");
            }
        }
    }
}

#[test]
fn a_word_past_the_qubits_comes_before_a_code_above_23() {
    let edge = |code| Record {
        neighbours: vec![0b10, 0b01],
        codes: vec![0, code],
        used: 0,
    };
    assert_eq!(edge(0).amplitude(4), Err(Refusal::Stray));
    assert_eq!(edge(24).amplitude(4), Err(Refusal::Stray));
    assert_eq!(edge(24).amplitude(3), Err(Refusal::Value));
}

#[test]
fn a_refused_call_keeps_the_bits_of_any_float() {
    let any = [
        0x7ff8_0000_0000_0001,
        0xfff4_dead_beef_0001,
        0x7ff0_0000_0000_0000,
        0x8000_0000_0000_0000,
        0x0000_0000_0000_0001,
        0xffff_ffff_ffff_ffff,
    ];
    for bits in any {
        for (n, y) in [(2, 4), (3, 0), (0, 0)] {
            let [mut re, mut im, mut p] = [f64::from_bits(bits); 3];
            let number = raw::amplitude(n, &[0, 0], &[0, 0], 0, y, &mut re, &mut im, &mut p);
            assert_ne!(number, 0);
            assert_eq!([re, im, p].map(f64::to_bits), [bits; 3], "{bits:x}");
        }
        // An accepted call reads none of them.
        let [mut re, mut im, mut p] = [f64::from_bits(bits); 3];
        let number = raw::amplitude(2, &[0, 0], &[0, 0], 0, 3, &mut re, &mut im, &mut p);
        assert_eq!((number, [re, im, p]), (0, [1.0, 0.0, 0.25]));
    }
}

#[test]
fn seeded_damage_against_the_reference() {
    reading::judge_damage::<At>(61_000, 6);
}
