//! Calls that read a record and a word or two beside it: what each of them must do with damaged arguments.

use super::calls::RecordCall;
use super::damage::{damage_record, each_fault, each_pair, record_faults, used_faults, Fault};
use super::seeded::{random_record, random_used_record, Random};
use std::fmt::Debug;
use sukhlent::Record;

/// What such a call reads beside the record.
pub trait Reading: Copy + Debug {
    /// What it answers.
    type Answer: Debug + PartialEq;

    /// Random words below 2^n.
    fn random(random: &mut Random, n: usize) -> Self;

    /// Puts one bit, which may be stray, in place of a word.
    fn put_bit(&mut self, random: &mut Random);

    /// The faults of these words on 8 vertices.
    fn faults() -> Vec<Fault<RecordCall<Self>>>;

    /// What the engine answers.
    fn answer(call: &RecordCall<Self>) -> Result<Self::Answer, u8>;

    /// The number due.
    fn due(call: &RecordCall<Self>) -> u8;

    /// The answer due where that number is 0.
    fn expected(call: &RecordCall<Self>) -> Self::Answer;
}

fn on<W: Reading>(seed: u64, n: usize, draw: fn(&mut Random, usize) -> Record) -> RecordCall<W> {
    let mut random = Random::new(seed);
    let record = draw(&mut random, n);
    RecordCall::with(&record, W::random(&mut random, n))
}

/// The call on a random record of n vertices.
pub fn base<W: Reading>(seed: u64, n: usize) -> RecordCall<W> {
    on(seed, n, random_record)
}

/// The call on a random record of n vertices of which some are used.
pub fn used<W: Reading>(seed: u64, n: usize) -> RecordCall<W> {
    on(seed, n, random_used_record)
}

/// An accepted call gives the answer due, another one its number.
pub fn assert_judged<W: Reading>(call: &RecordCall<W>) -> u8 {
    let due = W::due(call);
    let answer = match due {
        0 => Ok(W::expected(call)),
        number => Err(number),
    };
    assert_eq!(W::answer(call), answer, "{call:?}");
    due
}

fn assert_refused<W: Reading>(call: &RecordCall<W>, number: u8, what: &str) {
    assert_eq!(W::due(call), number, "the fault itself: {what}");
    assert_eq!(W::answer(call).err(), Some(number), "{what}: {call:?}");
}

fn faults<W: Reading>() -> Vec<Fault<RecordCall<W>>> {
    [record_faults::<W>(), used_faults(), W::faults()].concat()
}

/// Every fault gives its number.
pub fn judge_faults<W: Reading>() {
    for seed in 0..20 {
        assert_eq!(assert_judged(&base::<W>(seed, 8)), 0);
        each_fault(&faults::<W>(), || base(seed, 8), assert_refused);
    }
}

/// Of two faults the earlier number is given.
pub fn judge_pairs<W: Reading>() {
    for seed in 0..20 {
        each_pair(&faults::<W>(), || base(seed, 8), assert_refused);
    }
}

/// The words may have bits at used qubits, and the used word does not change the answer.
pub fn judge_used<W: Reading>(most: usize) {
    for seed in 0..300 {
        let call = used::<W>(seed, 1 + seed as usize % most);
        assert_eq!(assert_judged(&call), 0);
        let unused = RecordCall { used: 0, ..call };
        assert_eq!(assert_judged(&unused), 0);
    }
}

/// Seeded damage of calls on at most so many vertices; every number comes up.
pub fn judge_damage<W: Reading>(first: u64, most: usize) {
    let mut counts = [0; 8];
    for seed in 0..6000 {
        let mut random = Random::new(first + seed);
        let n = 1 + random.below(most);
        let mut call: RecordCall<W> = match random.below(2) {
            0 => base(seed, n),
            _ => used(seed, n),
        };
        if random.below(8) == 0 {
            call.with.put_bit(&mut random);
        }
        for _ in 0..random.below(3) {
            damage_record(&mut random, &mut call);
        }
        counts[usize::from(assert_judged(&call))] += 1;
    }
    let all = [0, 2, 4, 5, 6, 7];
    assert!(all.iter().all(|&k| counts[k] > 50), "{counts:?}");
}
