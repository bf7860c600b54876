//! Calls on a store of named states, on guarded buffers of any lengths and contents.

use super::guarded::Guarded;
use super::reference::{record_refusal, store_refusal};
use super::seeded::{random_used_record, Random};
use sukhlent::{raw, Record};

/// The arguments of the three calls: a record with its n, a name, a store, and the lengths of the two
/// buffers that a return writes.
#[derive(Clone, Debug)]
pub struct StoreCall {
    pub n: u64,
    pub record: Record,
    pub name: u64,
    pub heads: Vec<u64>,
    pub neighbours: Vec<u64>,
    pub codes: Vec<u8>,
    pub places: (usize, usize),
}

impl StoreCall {
    /// A store in which each place is held every second time, under the names 0 to 7 in any order,
    /// with noise in what is free; a record on n qubits, and a name among 0 to 9.
    pub fn random(random: &mut Random, n: usize) -> StoreCall {
        let record = random_used_record(random, n);
        let mut call = StoreCall {
            n: n as u64,
            record,
            name: random.below(10) as u64,
            heads: (0..24).map(|_| random.word()).collect(),
            neighbours: (0..512).map(|_| random.word()).collect(),
            codes: (0..512).map(|_| random.word() as u8).collect(),
            places: (64, 64),
        };
        let (first, all) = (random.below(8), random.below(2) == 0);
        for i in 0..8 {
            let name = ((i + first) % 8) as u64;
            if all || random.below(2) == 0 {
                let n = 1 + random.below(8);
                let held = random_used_record(random, n);
                call.hold(i, name, &held);
            } else {
                call.heads[3 * i] = 0;
            }
        }
        call
    }

    /// Puts a record at a place.
    pub fn hold(&mut self, i: usize, name: u64, record: &Record) {
        let n = record.n();
        self.heads[3 * i..3 * i + 3].copy_from_slice(&[n as u64, name, record.used]);
        self.neighbours[64 * i..64 * i + n].copy_from_slice(&record.neighbours);
        self.codes[64 * i..64 * i + n].copy_from_slice(&record.codes);
    }

    /// The place of a name, read plainly.
    pub fn place(&self) -> Option<usize> {
        let mut places = self.heads.chunks_exact(3).take(8);
        places.position(|place| place[0] != 0 && place[1] == self.name)
    }

    /// The number of a save, and the store that it leaves. A refused one changes nothing.
    pub fn save(&self) -> Result<StoreCall, u8> {
        let mut own = (
            Guarded::holding(&self.record.neighbours),
            Guarded::holding(&self.record.codes),
        );
        let mut heads = Guarded::holding(&self.heads);
        let mut neighbours = Guarded::holding(&self.neighbours);
        let mut codes = Guarded::holding(&self.codes);
        let number = raw::save(
            (self.n, own.0.lent(), own.1.lent(), self.record.used),
            self.name,
            heads.lent(),
            neighbours.lent(),
            codes.lent(),
        );
        own.0.assert_unchanged("neighbours");
        own.1.assert_unchanged("codes");
        if number != 0 {
            heads.assert_unchanged("heads");
            neighbours.assert_unchanged("held neighbours");
            codes.assert_unchanged("held codes");
            return Err(number);
        }
        Ok(StoreCall {
            heads: heads.answer("heads"),
            neighbours: neighbours.answer("held neighbours"),
            codes: codes.answer("held codes"),
            ..self.clone()
        })
    }

    /// The number of a return, and the record that it gives; what lies past it must stay.
    pub fn return_to(&self) -> Result<Record, u8> {
        let mut heads = Guarded::holding(&self.heads);
        let mut held = (
            Guarded::holding(&self.neighbours),
            Guarded::holding(&self.codes),
        );
        let mut numbers = Guarded::<u64>::patterned(2);
        let mut neighbours = Guarded::<u64>::patterned(self.places.0);
        let mut codes = Guarded::<u8>::patterned(self.places.1);
        let before = (neighbours.lent().to_vec(), codes.lent().to_vec());
        let (n, used) = numbers.lent().split_at_mut(1);
        let number = raw::return_to(
            self.name,
            (heads.lent(), held.0.lent(), held.1.lent()),
            &mut n[0],
            neighbours.lent(),
            codes.lent(),
            &mut used[0],
        );
        heads.assert_unchanged("heads");
        held.0.assert_unchanged("held neighbours");
        held.1.assert_unchanged("held codes");
        if number != 0 {
            numbers.assert_unchanged("n and used");
            neighbours.assert_unchanged("neighbours");
            codes.assert_unchanged("codes");
            return Err(number);
        }
        let numbers = numbers.answer("n and used");
        let n = numbers[0] as usize;
        let (neighbours, codes) = (neighbours.answer("neighbours"), codes.answer("codes"));
        assert_eq!(
            (&neighbours[n..], &codes[n..]),
            (&before.0[n..], &before.1[n..])
        );
        Ok(Record {
            neighbours: neighbours[..n].to_vec(),
            codes: codes[..n].to_vec(),
            used: numbers[1],
        })
    }

    /// The number of a forget, and the heads that it leaves.
    pub fn forget(&self) -> Result<Vec<u64>, u8> {
        let mut heads = Guarded::holding(&self.heads);
        let mut held = (
            Guarded::holding(&self.neighbours),
            Guarded::holding(&self.codes),
        );
        let number = raw::forget(self.name, heads.lent(), held.0.lent(), held.1.lent());
        held.0.assert_unchanged("held neighbours");
        held.1.assert_unchanged("held codes");
        if number != 0 {
            heads.assert_unchanged("heads");
            return Err(number);
        }
        Ok(heads.answer("heads"))
    }

    /// The number due to the store, with a further wrong length or not.
    fn store_due(&self, others: bool) -> u8 {
        store_refusal(&self.heads, &self.neighbours, &self.codes, others)
    }

    /// The number due to a save.
    pub fn save_due(&self) -> u8 {
        let own = record_refusal(self.n, &self.record, &[]);
        match [own, self.store_due(false)]
            .into_iter()
            .filter(|&k| k != 0)
            .min()
        {
            Some(number) => number,
            None if self.place().is_none() && (0..8).all(|i| self.heads[3 * i] != 0) => 18,
            None => 0,
        }
    }

    /// The number due to a return.
    pub fn return_due(&self) -> u8 {
        match self.store_due(self.places != (64, 64)) {
            0 if self.place().is_none() => 17,
            number => number,
        }
    }

    /// The number due to a forget.
    pub fn forget_due(&self) -> u8 {
        match self.store_due(false) {
            0 if self.place().is_none() => 17,
            number => number,
        }
    }
}

/// One random fault of a store or of the record beside it, or none.
pub fn damage_store(random: &mut Random, call: &mut StoreCall) {
    let (i, j) = (random.below(8), random.below(8));
    let (bit, place) = (1 << random.below(64), 64 * i + random.below(4));
    match random.below(14) {
        0 => call.n = [0, 65, call.n + 1, u64::MAX][random.below(4)],
        1 => put(
            &mut call.heads,
            3 * i,
            [65, u64::MAX, 64, 9][random.below(4)],
        ),
        2 => drop(call.heads.pop()),
        3 => call.neighbours.push(0),
        4 => drop(call.codes.pop()),
        5 => call.places.0 = 63,
        6 => call.places.1 = 65,
        7 => put(&mut call.heads, 3 * i + 2, bit),
        8 => put(&mut call.neighbours, place, bit),
        9 => put(&mut call.codes, place, 24 + random.below(200) as u8),
        10 => {
            let name = call.heads.get(3 * j + 1).copied().unwrap_or(0);
            put(&mut call.heads, 3 * i + 1, name);
        }
        11 => put(&mut call.record.codes, 0, 24),
        12 => call.record.used ^= bit,
        _ => put(&mut call.record.neighbours, 0, bit),
    }
}

/// Sets a place, where there is one.
fn put<T>(places: &mut [T], j: usize, value: T) {
    if let Some(place) = places.get_mut(j) {
        *place = value;
    }
}
