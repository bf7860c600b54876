//! Many steps in one call, on guarded buffers of any lengths and contents, and the same steps by the calls.

use super::calls::RecordCall;
use super::guarded::Guarded;
use super::operation::Operation;
use super::reference;
use sukhlent::{raw, Record};

/// Steps as they are lent; the slices for the answers by their lengths.
#[derive(Clone, Debug, Default)]
pub struct Steps {
    pub ops: Vec<u8>,
    pub a: Vec<u16>,
    pub b: Vec<u16>,
    pub value: Vec<u16>,
    pub refusals: usize,
    pub outcomes: usize,
    pub determined: usize,
}

/// Refusal, outcome and determined of a step.
pub type Told = [u8; 3];

impl Steps {
    /// The steps of four numbers each, with lengths as they should be.
    pub fn of(steps: &[(u8, u16, u16, u16)]) -> Steps {
        let count = steps.len();
        Steps {
            ops: steps.iter().map(|step| step.0).collect(),
            a: steps.iter().map(|step| step.1).collect(),
            b: steps.iter().map(|step| step.2).collect(),
            value: steps.iter().map(|step| step.3).collect(),
            refusals: count,
            outcomes: count,
            determined: count,
        }
    }

    fn lengths(&self) -> [usize; 6] {
        let answers = [self.refusals, self.outcomes, self.determined];
        let [a, b, value] = [&self.a, &self.b, &self.value].map(|slice| slice.len());
        [a, b, value, answers[0], answers[1], answers[2]]
    }
}

impl RecordCall<Steps> {
    /// The record that the call leaves and what each step answers, or the number of its refusal.
    ///
    /// Asserts that the steps and all guards keep their contents, on a refusal everything.
    pub fn run(&self) -> Result<(Record, Vec<Told>), u8> {
        let steps = &self.with;
        let mut neighbours = Guarded::holding(&self.neighbours);
        let mut codes = Guarded::holding(&self.codes);
        let mut used = Guarded::holding(&[self.used]);
        let mut ops = Guarded::holding(&steps.ops);
        let mut fields = [&steps.a, &steps.b, &steps.value].map(|slice| Guarded::holding(slice));
        let lengths = [steps.refusals, steps.outcomes, steps.determined];
        let mut answers = lengths.map(Guarded::patterned);
        let [a, b, value] = &mut fields;
        let [refusals, outcomes, determined] = &mut answers;
        let number = raw::run(
            self.n,
            neighbours.lent(),
            codes.lent(),
            &mut used.lent()[0],
            ops.lent(),
            a.lent(),
            b.lent(),
            value.lent(),
            refusals.lent(),
            outcomes.lent(),
            determined.lent(),
        );
        ops.assert_unchanged("ops");
        fields
            .iter()
            .for_each(|field| field.assert_unchanged("fields"));
        if number != 0 {
            neighbours.assert_unchanged("neighbours");
            codes.assert_unchanged("codes");
            used.assert_unchanged("used");
            let unchanged = |slice: &Guarded<u8>| slice.assert_unchanged("answers");
            answers.iter().for_each(unchanged);
            return Err(number);
        }
        let [refusals, outcomes, determined] = answers.map(|slice| slice.answer("answers"));
        let told = (0..refusals.len()).map(|k| [refusals[k], outcomes[k], determined[k]]);
        let record = Record {
            neighbours: neighbours.answer("neighbours"),
            codes: codes.answer("codes"),
            used: used.answer("used")[0],
        };
        Ok((record, told.collect()))
    }

    /// The number due to the record and the slices.
    pub fn due(&self) -> u8 {
        let steps = &self.with;
        let count = steps.ops.len();
        if count > 4096 {
            return 15;
        }
        let of_record = reference::record_refusal(self.n, &self.record(), &[]);
        if of_record == 2 {
            return 2;
        }
        if steps.lengths().iter().any(|&length| length != count) {
            return 4;
        }
        let six = steps.ops.iter().any(|&op| op > 6);
        match of_record {
            0 | 6 | 7 if six => 6,
            number => number,
        }
    }

    /// The steps of an accepted call, one after the other, by the calls.
    pub fn one_by_one(&self) -> (Record, Vec<Told>) {
        let mut record = self.record();
        let steps = &self.with;
        let told = (0..steps.ops.len())
            .map(|k| {
                one(
                    &mut record,
                    (steps.ops[k], steps.a[k], steps.b[k], steps.value[k]),
                )
            })
            .collect();
        (record, told)
    }
}

/// One step by the calls: a field that it does not use is 0, and a pivot is three complementations at the ends of an edge.
fn one(record: &mut Record, (op, a, b, value): (u8, u16, u16, u16)) -> Told {
    let unused = match op {
        0 | 2 | 5 | 6 => b != 0,
        1 | 4 => value != 0,
        _ => b != 0 || value != 0,
    };
    let large = match op {
        0 | 6 => value > 23,
        2 | 5 => value > 5,
        _ => false,
    };
    if unused || large {
        return [6, 0, 0];
    }
    let (a, b) = (u64::from(a), u64::from(b));
    match op {
        0 => by_call(record, Operation::Gate(a, value as u8)),
        1 => by_call(record, Operation::Cz(a, b)),
        2 => {
            let (pauli, bit) = (value as u8 / 2 + 1, value as u8 % 2);
            by_call(record, Operation::Measure(pauli, a, bit))
        }
        3 => by_call(record, Operation::Complement(a)),
        5 => observed(record, value as u8 / 2 + 1, a, value as u8 % 2),
        6 => [renewed(record, a, value as u8), 0, 0],
        _ => {
            let n = record.n() as u64;
            if a.max(b) >= n || a == b || record.neighbours[a as usize] >> b & 1 == 0 {
                return [8, 0, 0];
            }
            for vertex in [a, b, a] {
                assert_eq!(
                    by_call(record, Operation::Complement(vertex)),
                    [0, 0, 0],
                    "{vertex}"
                );
            }
            [0, 0, 0]
        }
    }
}

fn observed(record: &mut Record, pauli: u8, qubit: u64, bit: u8) -> Told {
    let n = record.n() as u64;
    let (mut outcome, mut determined) = (0, 0);
    let number = raw::observe(
        n,
        &mut record.neighbours,
        &mut record.codes,
        &mut record.used,
        pauli,
        qubit,
        bit,
        &mut outcome,
        &mut determined,
    );
    [number, outcome, determined]
}

fn renewed(record: &mut Record, qubit: u64, code: u8) -> u8 {
    let n = record.n() as u64;
    raw::renew(
        n,
        &mut record.neighbours,
        &mut record.codes,
        &mut record.used,
        qubit,
        code,
    )
}

fn by_call(record: &mut Record, operation: Operation) -> Told {
    let n = record.n() as u64;
    let (mut outcome, mut determined) = (0, 0);
    let number = operation.call(
        n,
        &mut record.neighbours,
        &mut record.codes,
        &mut record.used,
        &mut outcome,
        &mut determined,
    );
    [number, outcome, determined]
}
