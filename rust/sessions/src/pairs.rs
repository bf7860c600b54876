//! Pairs of runs of two groups on one record: one group's calls are equal in order, the other's are
//! drawn anew and placed anywhere. After each of its calls the group sees the same in both runs; and
//! each accepted call leaves the group that the whole-record call leaves.

use crate::common::shared::{masked, of, on, own, random_word, GroupCall};
use crate::common::source::Source;
use crate::common::{Operation, Random, RecordCall};
use crate::session::same;
use std::collections::HashMap;
use std::fmt;
use sukhlent::{expand, raw, reduce, Record};

/// The calls of the group that is watched, in each run.
const CALLS: usize = 14;

/// What stands in the places of an outcome before a call.
const UNTOUCHED: [u8; 2] = [0xa5, 0x5a];

/// What a group sees after a call of its own: the number, what stands in the places of an outcome,
/// its words, codes and used bits, and its four places of the store.
#[derive(Clone, Debug, PartialEq, Eq)]
struct Seen {
    number: u8,
    outcome: [u8; 2],
    vertices: Record,
    heads: Vec<u64>,
    words: Vec<u64>,
    codes: Vec<u8>,
}

/// How often something happened in many pairs.
#[derive(Clone, Debug, Default, PartialEq, Eq)]
pub struct PairCounts {
    /// Calls of the group that is watched, and of the other.
    pub own: u64,
    pub others: u64,
    /// Accepted gates, CZ, measurements, complementations, saves, returns, forgets, observations,
    /// renewals.
    pub accepted: [u64; 9],
    /// Refused calls, by their number.
    pub refused: [u64; 21],
    /// Pairs in which the other group's vertices differ at the end.
    pub different: u64,
}

impl fmt::Display for PairCounts {
    fn fmt(&self, f: &mut fmt::Formatter<'_>) -> fmt::Result {
        let refused: u64 = self.refused.iter().sum();
        let [gates, czs, measured, complements, saves, returns, forgets, observed, renewed] =
            self.accepted;
        write!(
            f,
            "{} calls of the group and {} of the other, {refused} of them refused; {gates} gates, \
             {czs} CZ, {measured} measurements, {complements} complements, {saves} saves, {returns} \
             returns, {forgets} forgets, {observed} observations and {renewed} renewals; the other's vertices differ at the end of {} pairs",
            self.own, self.others, self.different
        )
    }
}

/// One run: what is lent, and what each group has saved.
struct Run {
    word: u64,
    record: Record,
    heads: [u64; 24],
    words: [u64; 512],
    codes: [u8; 512],
    saved: HashMap<(u8, u64), Record>,
}

impl Run {
    fn new(word: u64) -> Run {
        Run {
            word,
            record: Record::zeros(64),
            heads: [0; 24],
            words: [0; 512],
            codes: [0; 512],
            saved: HashMap::new(),
        }
    }

    /// What a group sees of all that is lent.
    fn seen(&self, group: u8, number: u8, outcome: [u8; 2]) -> Seen {
        let g = usize::from(group);
        Seen {
            number,
            outcome,
            vertices: masked(&self.record, own(self.word, group)),
            heads: self.heads[12 * g..][..12].to_vec(),
            words: self.words[256 * g..][..256].to_vec(),
            codes: self.codes[256 * g..][..256].to_vec(),
        }
    }

    /// Makes a call of a group, and compares what it left with the whole-record call.
    fn step(
        &mut self,
        group: u8,
        call: GroupCall,
        counts: &mut PairCounts,
    ) -> Result<Seen, String> {
        let before = self.record.clone();
        let other = self.seen(1 - group, 0, UNTOUCHED);
        let whose = (self.word, group);
        let mut outcome = UNTOUCHED;
        let [answer, determined] = &mut outcome;
        let (words, codes) = (&mut self.record.neighbours, &mut self.record.codes);
        let used = &mut self.record.used;
        let held = (&mut self.heads, &mut self.words, &mut self.codes);
        let number = match call {
            GroupCall::On(operation) => {
                let outcome = [answer, determined];
                on(operation, (64, whose), words, codes, used, outcome)
            }
            GroupCall::Of(source) => {
                let outcome = [answer, determined];
                of(source, (64, whose), words, codes, used, outcome)
            }
            GroupCall::Save(name) => {
                let record = (64, &**words, &**codes, *used);
                raw::group_save(record, whose, name, held.0, held.1, held.2)
            }
            GroupCall::Return(name) => {
                let store = (&held.0[..], &held.1[..], &held.2[..]);
                raw::group_return(64, whose, words, codes, used, name, store)
            }
            GroupCall::Forget(name) => {
                let record = (64, &**words, &**codes, *used);
                raw::group_forget(record, whose, name, held.0, held.1, held.2)
            }
        };
        let seen = self.seen(group, number, outcome);
        let kind = match number {
            0 => self.compare(group, call, &before, &seen),
            _ => same("the refused record", &self.record, &before),
        };
        kind.and_then(|()| {
            let left = self.seen(1 - group, 0, UNTOUCHED);
            same("what the other group sees", left, other)
        })
        .map_err(|e| format!("{call:?} of group {group} on {before:?}: {e}"))?;
        match number {
            0 => counts.accepted[kind_of(call)] += 1,
            _ => counts.refused[usize::from(number)] += 1,
        }
        Ok(seen)
    }

    /// Compares what an accepted call left with the whole-record call, or with what was saved.
    fn compare(
        &mut self,
        group: u8,
        call: GroupCall,
        before: &Record,
        seen: &Seen,
    ) -> Result<(), String> {
        match call {
            GroupCall::On(operation) => {
                let (mut whole, [mut answer, mut determined]) = (before.clone(), UNTOUCHED);
                let number = operation.call(
                    64,
                    &mut whole.neighbours,
                    &mut whole.codes,
                    &mut whole.used,
                    &mut answer,
                    &mut determined,
                );
                same("the number", 0, number)?;
                same("the outcome", seen.outcome, [answer, determined])?;
                same("the used word", self.record.used, whole.used)?;
                let vertices = masked(&whole, own(self.word, group));
                same("the group's vertices", &seen.vertices, &vertices)?;
                same_elements(&self.record, &whole)
            }
            GroupCall::Of(source) => {
                let (whole, measured) = RecordCall::with(before, source)
                    .apply_source()
                    .map_err(|number| format!("the whole-record call is refused by {number}"))?;
                let due = measured.map_or(UNTOUCHED, |m| [m.outcome, u8::from(m.determined)]);
                same("the outcome", seen.outcome, due)?;
                same("the used word", self.record.used, whole.used)?;
                same_elements(&self.record, &whole)
            }
            GroupCall::Save(name) => {
                let vertices = masked(before, own(self.word, group));
                self.saved.insert((group, name), vertices);
                same("the record of a save", &self.record, before)
            }
            GroupCall::Return(name) => {
                let due = self.saved.get(&(group, name));
                same("the group's vertices", Some(&seen.vertices), due)
            }
            GroupCall::Forget(name) => {
                let held = self.saved.remove(&(group, name)).is_some();
                same("the name is held", held, true)?;
                same("the record of a forget", &self.record, before)
            }
        }
    }
}

/// The place of a call in the counts.
fn kind_of(call: GroupCall) -> usize {
    match call {
        GroupCall::On(Operation::Gate(..)) => 0,
        GroupCall::On(Operation::Cz(..)) => 1,
        GroupCall::On(Operation::Measure(..)) => 2,
        GroupCall::On(Operation::Complement(..)) => 3,
        GroupCall::Save(_) => 4,
        GroupCall::Return(_) => 5,
        GroupCall::Forget(_) => 6,
        GroupCall::Of(Source::Observe(..)) => 7,
        GroupCall::Of(Source::Renew(..)) => 8,
    }
}

/// Whether two records stand for the same elements, as equal records do.
fn same_elements(left: &Record, whole: &Record) -> Result<(), String> {
    if left == whole {
        return Ok(());
    }
    same("the elements", elements(left)?, elements(whole)?)
}

/// The reduced record of a record's generators: equal exactly where the elements are.
fn elements(record: &Record) -> Result<Record, String> {
    let list = expand(record).map_err(|refusal| refusal.to_string())?;
    reduce(&list).map_err(|refusal| refusal.to_string())
}

/// A call of a group that has some of the qubits: mostly gates and CZ at first, all kinds later.
fn drawn(random: &mut Random, word: u64, group: u8, number: usize) -> GroupCall {
    let few = [0, 1, 0, 1, 3, 4, 2, 5, 6, 7, 8];
    let all = [0, 1, 2, 2, 3, 4, 5, 5, 6, 7, 8];
    let kinds = if 2 * number < CALLS { few } else { all };
    let kind = kinds[random.below(kinds.len())];
    GroupCall::random(random, kind, own(word, group))
}

/// One run: the watched group's calls in order, and before each up to three of the other's.
fn run(
    word: u64,
    group: u8,
    calls: &[GroupCall],
    others: &mut Random,
    counts: &mut PairCounts,
) -> Result<(Vec<Seen>, Seen), String> {
    let mut run = Run::new(word);
    let mut seen = Vec::new();
    for (number, &call) in calls.iter().enumerate() {
        for _ in 0..others.below(4) {
            let other = drawn(others, word, 1 - group, number);
            run.step(1 - group, other, counts)?;
            counts.others += 1;
        }
        seen.push(run.step(group, call, counts)?);
        counts.own += 1;
    }
    Ok((seen, run.seen(1 - group, 0, UNTOUCHED)))
}

/// Makes so many pairs of runs from a seed. The error names the pair and what is different.
pub fn pairs(seed: u64, count: u64) -> Result<PairCounts, String> {
    let mut counts = PairCounts::default();
    for pair in 0..count {
        let mut random = Random::new(seed.wrapping_mul(1 << 32).wrapping_add(pair));
        let word = match random.below(3) {
            0 => random.word(),
            1 => !0 << 32,
            _ => random_word(&mut random),
        };
        let group = random.below(2) as u8;
        let calls: Vec<GroupCall> = (0..CALLS)
            .map(|number| drawn(&mut random, word, group, number))
            .collect();
        let runs = [0, 1].map(|_| run(word, group, &calls, &mut random, &mut counts));
        let [first, second] = runs;
        let named = |e: String| format!("pair {pair} of seed {seed}: {e}");
        let (first, second) = (first.map_err(named)?, second.map_err(named)?);
        let differs = (0..CALLS).find(|&k| first.0[k] != second.0[k]);
        if let Some(k) = differs {
            let (call, a, b) = (calls[k], &first.0[k], &second.0[k]);
            return Err(named(format!(
                "after {call:?} the group sees {a:?}, then {b:?}"
            )));
        }
        counts.different += u64::from(first.1 != second.1);
    }
    Ok(counts)
}

#[cfg(test)]
mod tests {
    use super::*;

    /// Two groups of 32 qubits, each with an edge; group 0 has saved it.
    fn some() -> Run {
        let (mut run, mut counts) = (Run::new(!0 << 32), PairCounts::default());
        for (group, a) in [(0, 3), (1, 40)] {
            for operation in [
                Operation::Gate(a, 8),
                Operation::Gate(a + 1, 8),
                Operation::Cz(a, a + 1),
            ] {
                let call = GroupCall::On(operation);
                run.step(group, call, &mut counts).expect("no difference");
            }
        }
        let saved = run.step(0, GroupCall::Save(1), &mut counts);
        assert_eq!(saved.map(|seen| seen.number), Ok(0));
        run
    }

    #[test]
    fn all_that_a_group_sees_is_compared() {
        let due = some().seen(0, 0, UNTOUCHED);
        assert_eq!(some().seen(0, 0, UNTOUCHED), due);
        assert_ne!(some().seen(0, 16, UNTOUCHED), due);
        assert_ne!(some().seen(0, 0, [1, 0]), due);
        let changed: [fn(&mut Run); 6] = [
            |run| run.record.codes[3] = 2,
            |run| run.record.neighbours[4] = 0,
            |run| run.record.used = 1 << 9,
            |run| run.heads[0] = 0,
            |run| run.words[3] = 0,
            |run| run.codes[3] = 2,
        ];
        for change in changed {
            let mut run = some();
            change(&mut run);
            assert_ne!(run.seen(0, 0, UNTOUCHED), due);
            assert_eq!(run.seen(1, 0, UNTOUCHED), some().seen(1, 0, UNTOUCHED));
        }
    }

    #[test]
    fn another_record_than_the_whole_record_calls_is_a_difference() {
        let (before, call) = (some().record, GroupCall::On(Operation::Gate(5, 8)));
        let mut counts = PairCounts::default();
        let mut run = some();
        let seen = run.step(0, call, &mut counts).expect("no difference");
        assert_eq!(run.compare(0, call, &before, &seen), Ok(()));
        let other = Seen {
            outcome: [1, 0],
            ..seen.clone()
        };
        assert!(run.compare(0, call, &before, &other).is_err());
        run.record.codes[40] = 2;
        assert!(run.compare(0, call, &before, &seen).is_err());
        // What was saved is not what stands there.
        let call = GroupCall::Return(1);
        assert!(some().compare(0, call, &before, &seen).is_err());
    }
}
