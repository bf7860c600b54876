//! Measurements of Pauli rows of any weight between gates, CZ and measured qubits, compared call by
//! call with a plain tableau.

use crate::common::Random;
use crate::session::{of_tableau, reduced, same, start};
use std::fmt;
use sukhlent::{raw, Record};
use tableau::{Row, Tableau};

/// The most qubits that are measured and so used: the rows have letters on the others.
const MOST_USED: u32 = 8;

/// The numbers of calls of each kind.
#[derive(Clone, Debug, Default, PartialEq, Eq)]
pub struct RowCounts {
    pub gates: u64,
    pub czs: u64,
    pub observed: u64,
    /// Rows whose outcome was the bit.
    pub chosen: u64,
    /// Rows whose outcome was determined, and those of them whose bit was another.
    pub determined: u64,
    pub other_bits: u64,
    /// Rows that act on a used qubit.
    pub used: u64,
    /// The most letters of a row that was not determined.
    pub most_letters: u32,
}

impl fmt::Display for RowCounts {
    fn fmt(&self, f: &mut fmt::Formatter<'_>) -> fmt::Result {
        write!(
            f,
            "{} gates, {} CZ, {} qubits measured, {} rows chosen, {} determined and {} of them against the bit, {} \
             on used qubits, at most {} letters",
            self.gates,
            self.czs,
            self.observed,
            self.chosen,
            self.determined,
            self.other_bits,
            self.used,
            self.most_letters
        )
    }
}

/// A record and the tableau of the same state.
struct Run {
    random: Random,
    record: Record,
    tableau: Tableau,
    counts: RowCounts,
}

/// Makes so many calls on n qubits. The error names the call and what is different.
pub fn rows(n: usize, seed: u64, calls: u64) -> Result<RowCounts, String> {
    let mut run = Run {
        random: Random::new(seed),
        record: start(n),
        tableau: Tableau::zero(n),
        counts: RowCounts::default(),
    };
    for number in 1..=calls {
        run.step().map_err(|difference| {
            format!("{n} qubits, seed {seed}, call {number}: {difference}")
        })?;
    }
    Ok(run.counts)
}

impl Run {
    /// A random call: four rows to a gate, a CZ and now and then a measured qubit.
    fn step(&mut self) -> Result<(), String> {
        let n = self.record.n();
        let (a, b) = (self.random.below(n), self.random.below(n));
        let is_used = |q: usize| self.record.used >> q & 1 == 1;
        let (free, apart) = (!is_used(a), a != b && !is_used(a) && !is_used(b));
        match self.random.below(64) {
            0 if free && self.record.used.count_ones() < MOST_USED => self.observe(a),
            1..=10 if free => self.gate(a),
            11..=20 if apart => self.cz(a, b),
            _ => self.row(),
        }
    }

    fn gate(&mut self, q: usize) -> Result<(), String> {
        let (code, used) = (self.random.below(24) as u8, self.record.used);
        let Record {
            neighbours, codes, ..
        } = &mut self.record;
        let number = raw::gate(
            neighbours.len() as u64,
            neighbours,
            codes,
            used,
            q as u64,
            code,
        );
        self.tableau.gate(q, code);
        self.counts.gates += 1;
        same("the number of a gate", number, 0).and_then(|()| self.compare())
    }

    fn cz(&mut self, a: usize, b: usize) -> Result<(), String> {
        let used = self.record.used;
        let Record {
            neighbours, codes, ..
        } = &mut self.record;
        let number = raw::cz(
            neighbours.len() as u64,
            neighbours,
            codes,
            used,
            a as u64,
            b as u64,
        );
        self.tableau.cz(a, b);
        self.counts.czs += 1;
        same("the number of a CZ", number, 0).and_then(|()| self.compare())
    }

    fn observe(&mut self, q: usize) -> Result<(), String> {
        let (pauli, bit) = (1 + self.random.below(3) as u8, self.random.below(2) as u8);
        let Record {
            neighbours,
            codes,
            used,
        } = &mut self.record;
        let (mut answer, mut determined) = (9, 9);
        let answers = (&mut answer, &mut determined);
        let n = neighbours.len() as u64;
        let number = raw::observe(
            n, neighbours, codes, used, pauli, q as u64, bit, answers.0, answers.1,
        );
        let due = self.tableau.measure_row(&Row::single(pauli, q), bit);
        self.counts.observed += 1;
        let due = (0, due.outcome, u8::from(due.determined));
        same("the answer at a qubit", (number, answer, determined), due)
            .and_then(|()| self.compare())
    }

    /// A row of few letters or many, every third one of the group.
    fn words(&mut self) -> (u64, u64) {
        let random = &mut self.random;
        let all = u64::MAX >> (64 - self.record.n());
        let kept = if random.below(8) == 0 {
            all
        } else {
            all & !self.record.used
        };
        let (mut z, mut x) = (random.word(), random.word());
        for _ in 0..random.below(6) {
            let few = random.word();
            (z, x) = (z & few, x & few);
        }
        if random.below(3) == 0 {
            let chosen = random.word();
            let named = |j: &usize| chosen >> j & 1 == 1;
            let rows = self.tableau.generators();
            (z, x) = (0..rows.len())
                .filter(named)
                .fold((0, 0), |(z, x), j| (z ^ rows[j].z, x ^ rows[j].x));
        }
        (z & kept, x & kept)
    }

    /// A row measured: its answer, the record, and its value afterwards.
    fn row(&mut self) -> Result<(), String> {
        let ((z, x), bit) = (self.words(), self.random.below(2) as u8);
        let (before, used) = (self.record.clone(), self.record.used);
        let (mut answer, mut determined, mut value) = (9, 9, 9);
        let Record {
            neighbours, codes, ..
        } = &mut self.record;
        let n = neighbours.len() as u64;
        let number = raw::measure_row(
            n,
            neighbours,
            codes,
            used,
            z,
            x,
            bit,
            &mut answer,
            &mut determined,
        );
        let told = |e: String| format!("z {z:x}, x {x:x}, bit {bit} on {before:?}: {e}");
        if used & (z | x) != 0 {
            self.counts.used += 1;
            same("the number", number, 16).map_err(told)?;
            return same("the refused record", &self.record, &before).map_err(told);
        }
        let due = self.tableau.measure_row(&Row::letters(z, x), bit);
        same("the number", number, 0).map_err(told)?;
        same(
            "the answer",
            (answer, determined),
            (due.outcome, u8::from(due.determined)),
        )
        .map_err(told)?;
        raw::expectation(n, neighbours, codes, used, z, x, &mut value);
        same("the value afterwards", value, answer).map_err(told)?;
        self.count(due.determined, answer != bit, (z | x).count_ones());
        self.compare().map_err(told)
    }

    fn count(&mut self, determined: bool, other: bool, letters: u32) {
        let counts = &mut self.counts;
        if determined {
            counts.determined += 1;
            counts.other_bits += u64::from(other);
        } else {
            counts.chosen += 1;
            counts.most_letters = counts.most_letters.max(letters);
        }
    }

    /// Compares the record with the tableau, which has been changed alike.
    fn compare(&self) -> Result<(), String> {
        let due = Record {
            used: self.record.used,
            ..reduced(&of_tableau(&self.tableau))
        };
        same("the record", &self.record, &due)
    }
}
