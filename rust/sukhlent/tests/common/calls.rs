//! Raw calls on guarded buffers, of any lengths and contents.
//!
//! Every call asserts that its inputs and all guards keep their contents, and on a refusal the
//! answer buffers too.

use super::guarded::Guarded;
use super::reference;
use sukhlent::{raw, GeneratorList, Record};

/// The arguments of a call on a generator list; answer buffers by their lengths.
#[derive(Clone, Debug)]
pub struct ListCall {
    pub n: u64,
    pub signs: Vec<u8>,
    pub z: Vec<u64>,
    pub x: Vec<u64>,
    pub neighbours: usize,
    pub codes: usize,
}

impl ListCall {
    /// The call on a list, with lengths as they should be.
    pub fn on(list: &GeneratorList) -> ListCall {
        ListCall {
            n: list.n() as u64,
            signs: list.signs.clone(),
            z: list.z.clone(),
            x: list.x.clone(),
            neighbours: list.n(),
            codes: list.n(),
        }
    }

    /// The list.
    pub fn list(&self) -> GeneratorList {
        GeneratorList {
            signs: self.signs.clone(),
            z: self.z.clone(),
            x: self.x.clone(),
        }
    }

    /// The list between guards.
    pub fn guarded(&self) -> GuardedList {
        GuardedList {
            n: self.n,
            signs: Guarded::holding(&self.signs),
            z: Guarded::holding(&self.z),
            x: Guarded::holding(&self.x),
        }
    }

    /// The number that `check` answers.
    pub fn check(&self) -> u8 {
        let mut list = self.guarded();
        let (n, signs, z, x) = list.lent();
        let number = raw::check(n, signs, z, x);
        list.assert_unchanged();
        number
    }

    /// The record that `reduce` writes, or the number of its refusal.
    pub fn reduce(&self) -> Result<Record, u8> {
        let mut list = self.guarded();
        let mut neighbours = Guarded::patterned(self.neighbours);
        let mut codes = Guarded::patterned(self.codes);
        let mut used = Guarded::patterned(1);
        let (n, signs, z, x) = list.lent();
        let (words, bytes) = (neighbours.lent(), codes.lent());
        let number = raw::reduce(n, signs, z, x, words, bytes, &mut used.lent()[0]);
        list.assert_unchanged();
        if number != 0 {
            neighbours.assert_unchanged("neighbours");
            codes.assert_unchanged("codes");
            used.assert_unchanged("used");
            return Err(number);
        }
        Ok(Record {
            neighbours: neighbours.answer("neighbours"),
            codes: codes.answer("codes"),
            used: used.answer("used")[0],
        })
    }

    /// The number due to the list alone, and with the answer buffers' lengths.
    pub fn due(&self) -> (u8, u8) {
        let due = |lengths: &[usize]| {
            reference::list_refusal(self.n, &self.signs, &self.z, &self.x, lengths)
        };
        (due(&[]), due(&[self.neighbours, self.codes]))
    }
}

/// A generator list between guards.
pub struct GuardedList {
    n: u64,
    signs: Guarded<u8>,
    z: Guarded<u64>,
    x: Guarded<u64>,
}

impl GuardedList {
    /// The list, as the raw calls take it.
    pub fn lent(&mut self) -> raw::Lent<'_> {
        (self.n, self.signs.lent(), self.z.lent(), self.x.lent())
    }

    /// Panics where the list or a guard has changed.
    pub fn assert_unchanged(&self) {
        self.signs.assert_unchanged("signs");
        self.z.assert_unchanged("z");
        self.x.assert_unchanged("x");
    }
}

/// The list that a call wrote, or the number of its refusal, which leaves the buffers as they were.
pub fn answered_list(
    number: u8,
    signs: &Guarded<u8>,
    z: &Guarded<u64>,
    x: &Guarded<u64>,
) -> Result<GeneratorList, u8> {
    if number != 0 {
        signs.assert_unchanged("signs");
        z.assert_unchanged("z");
        x.assert_unchanged("x");
        return Err(number);
    }
    Ok(GeneratorList {
        signs: signs.answer("signs"),
        z: z.answer("z"),
        x: x.answer("x"),
    })
}

/// The arguments of a call on a record: the record, and what goes with it.
#[derive(Clone, Debug)]
pub struct RecordCall<W> {
    pub n: u64,
    pub neighbours: Vec<u64>,
    pub codes: Vec<u8>,
    pub used: u64,
    pub with: W,
}

/// The lengths of the answer buffers of `expand`.
#[derive(Clone, Debug)]
pub struct Lengths {
    pub signs: usize,
    pub z: usize,
    pub x: usize,
}

impl<W> RecordCall<W> {
    /// The call on a record.
    pub fn with(record: &Record, with: W) -> RecordCall<W> {
        RecordCall {
            n: record.n() as u64,
            neighbours: record.neighbours.clone(),
            codes: record.codes.clone(),
            used: record.used,
            with,
        }
    }

    /// The record.
    pub fn record(&self) -> Record {
        Record {
            neighbours: self.neighbours.clone(),
            codes: self.codes.clone(),
            used: self.used,
        }
    }
}

impl RecordCall<Lengths> {
    /// The call on a record, with lengths as they should be.
    pub fn on(record: &Record) -> RecordCall<Lengths> {
        let n = record.n();
        let lengths = Lengths {
            signs: n,
            z: n,
            x: n,
        };
        RecordCall::with(record, lengths)
    }

    /// The list that `expand` writes, or the number of its refusal.
    pub fn expand(&self) -> Result<GeneratorList, u8> {
        let mut neighbours = Guarded::holding(&self.neighbours);
        let mut codes = Guarded::holding(&self.codes);
        let mut signs = Guarded::patterned(self.with.signs);
        let mut z = Guarded::patterned(self.with.z);
        let mut x = Guarded::patterned(self.with.x);
        let number = raw::expand(
            self.n,
            neighbours.lent(),
            codes.lent(),
            self.used,
            signs.lent(),
            z.lent(),
            x.lent(),
        );
        neighbours.assert_unchanged("neighbours");
        codes.assert_unchanged("codes");
        answered_list(number, &signs, &z, &x)
    }

    /// The number due to the record and the answer buffers' lengths.
    pub fn due(&self) -> u8 {
        let lengths = [self.with.signs, self.with.z, self.with.x];
        reference::record_refusal(self.n, &self.record(), &lengths)
    }
}
