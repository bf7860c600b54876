//! Calls of two groups on one record, on guarded buffers of any lengths and contents.

use super::guarded::Guarded;
use super::in_place::measured;
use super::operation::Operation;
use super::seeded::{isolate, random_used_record, Random};
use super::source::Source;
use sukhlent::{raw, Measured, Record};

/// A call of a group.
#[derive(Clone, Copy, Debug, PartialEq, Eq)]
pub enum GroupCall {
    /// A gate, a CZ, a measurement or a complementation.
    On(Operation),
    /// An observation or a renewal.
    Of(Source),
    /// A save under a name.
    Save(u64),
    /// A return to a name.
    Return(u64),
    /// A name forgotten.
    Forget(u64),
}

impl GroupCall {
    /// A random call of one kind, 0 to 8, mostly on the qubits of a word; names are 0 to 5.
    pub fn random(random: &mut Random, kind: usize, own: u64) -> GroupCall {
        let qubits: Vec<u64> = (0..64).filter(|q| own >> q & 1 == 1).collect();
        let mut qubit = || match random.below(24) {
            0 => random.below(64) as u64,
            1 => 64 + random.below(3) as u64,
            _ if qubits.is_empty() => 0,
            _ => qubits[random.below(qubits.len())],
        };
        let [a, b] = [qubit(), qubit()];
        let rare = |random: &mut Random| u8::from(random.below(40) == 0);
        match kind {
            0 => {
                let wrong = rare(random);
                let code = random.below(24) as u8 + 24 * wrong;
                GroupCall::On(Operation::Gate(a, code))
            }
            1 => GroupCall::On(Operation::Cz(a, b)),
            2 => {
                let (pauli, bit) = (random.below(3) as u8 + 1, random.below(2) as u8);
                let wrong = [rare(random), rare(random)];
                let measured = Operation::Measure(pauli * (1 - wrong[0]), a, bit + 2 * wrong[1]);
                GroupCall::On(measured)
            }
            3 => GroupCall::On(Operation::Complement(a)),
            4 => GroupCall::Save(random.below(6) as u64),
            5 => GroupCall::Return(random.below(6) as u64),
            6 => GroupCall::Forget(random.below(6) as u64),
            7 => {
                let (pauli, bit) = (random.below(3) as u8 + 1, random.below(2) as u8);
                let wrong = [rare(random), rare(random)];
                let observed = Source::Observe(pauli * (1 - wrong[0]), a, bit + 2 * wrong[1]);
                GroupCall::Of(observed)
            }
            _ => {
                let wrong = rare(random);
                let code = 2 * random.below(6) as u8 + wrong;
                GroupCall::Of(Source::Renew(a, code))
            }
        }
    }
}

/// What two groups lend: the record with its n, the word, and the three buffers of the store.
#[derive(Clone, Debug, PartialEq, Eq)]
pub struct Lent {
    pub n: u64,
    pub word: u64,
    pub record: Record,
    pub heads: Vec<u64>,
    pub neighbours: Vec<u64>,
    pub codes: Vec<u8>,
}

/// The qubits of a group.
pub fn own(word: u64, group: u8) -> u64 {
    if group == 1 {
        word
    } else {
        !word
    }
}

impl Lent {
    /// As a session starts.
    pub fn start(word: u64) -> Lent {
        Lent {
            n: 64,
            word,
            record: Record::zeros(64),
            heads: vec![0; 24],
            neighbours: vec![0; 512],
            codes: vec![0; 512],
        }
    }

    /// A record without an edge between the groups, and a store in which each place is held every
    /// second time, the names of a group's places in any order, with noise in what is free.
    pub fn random(random: &mut Random, word: u64) -> Lent {
        let mut lent = Lent {
            record: apart(random, word),
            heads: (0..24).map(|_| random.word()).collect(),
            neighbours: (0..512).map(|_| random.word()).collect(),
            codes: (0..512).map(|_| random.word() as u8).collect(),
            ..Lent::start(word)
        };
        let (first, all) = (random.below(4), random.below(2) == 0);
        for i in 0..8 {
            if all || random.below(2) == 0 {
                let held = masked(&apart(random, word), own(word, i as u8 / 4));
                lent.hold(i, ((i + first) % 4) as u64, &held);
            } else {
                lent.heads[3 * i] = 0;
            }
        }
        lent
    }

    /// Puts a record of 64 vertices at a place.
    pub fn hold(&mut self, i: usize, name: u64, record: &Record) {
        self.heads[3 * i..3 * i + 3].copy_from_slice(&[64, name, record.used]);
        self.neighbours[64 * i..64 * i + 64].copy_from_slice(&record.neighbours);
        self.codes[64 * i..64 * i + 64].copy_from_slice(&record.codes);
    }

    /// The place of a group's name, read plainly.
    pub fn place(&self, group: u8, name: u64) -> Option<usize> {
        let places = 4 * usize::from(group)..4 * usize::from(group) + 4;
        let mut named = places.filter(|i| self.heads[3 * i] != 0 && self.heads[3 * i + 1] == name);
        named.next()
    }

    /// What the call leaves and what it measures, or the number of its refusal.
    ///
    /// Asserts that all guards keep their contents, on a refusal the buffers too, and that a call
    /// writes no buffer that it is not to write.
    pub fn call(&self, group: u8, call: GroupCall) -> Result<(Lent, Option<Measured>), u8> {
        let mut words = Guarded::holding(&self.record.neighbours);
        let mut codes = Guarded::holding(&self.record.codes);
        let mut used = Guarded::holding(&[self.record.used]);
        let mut answer = Guarded::patterned(1);
        let mut determined = Guarded::patterned(1);
        let mut heads = Guarded::holding(&self.heads);
        let mut held = Guarded::holding(&self.neighbours);
        let mut held_codes = Guarded::holding(&self.codes);
        let (n, whose) = (self.n, (self.word, group));
        let number = match call {
            GroupCall::On(operation) => on(
                operation,
                (n, whose),
                words.lent(),
                codes.lent(),
                &mut used.lent()[0],
                [&mut answer.lent()[0], &mut determined.lent()[0]],
            ),
            GroupCall::Of(source) => of(
                source,
                (n, whose),
                words.lent(),
                codes.lent(),
                &mut used.lent()[0],
                [&mut answer.lent()[0], &mut determined.lent()[0]],
            ),
            GroupCall::Save(name) => {
                let record = (n, &*words.lent(), &*codes.lent(), self.record.used);
                let (heads, held) = (heads.lent(), held.lent());
                raw::group_save(record, whose, name, heads, held, held_codes.lent())
            }
            GroupCall::Return(name) => raw::group_return(
                n,
                whose,
                words.lent(),
                codes.lent(),
                &mut used.lent()[0],
                name,
                (heads.lent(), held.lent(), held_codes.lent()),
            ),
            GroupCall::Forget(name) => {
                let record = (n, &*words.lent(), &*codes.lent(), self.record.used);
                let (heads, held) = (heads.lent(), held.lent());
                raw::group_forget(record, whose, name, heads, held, held_codes.lent())
            }
        };
        let observes = matches!(call, GroupCall::Of(Source::Observe(..)));
        let measures =
            (observes || matches!(call, GroupCall::On(Operation::Measure(..)))) && number == 0;
        let renews = matches!(call, GroupCall::Of(Source::Renew(..))) && number == 0;
        let record = matches!(
            call,
            GroupCall::On(_) | GroupCall::Of(_) | GroupCall::Return(_)
        ) && number == 0;
        let returns = matches!(call, GroupCall::Return(_)) && number == 0;
        let saves = matches!(call, GroupCall::Save(_)) && number == 0;
        let forgets = matches!(call, GroupCall::Forget(_)) && number == 0;
        if !measures {
            answer.assert_unchanged("answer");
            determined.assert_unchanged("determined");
        }
        if !measures && !renews && !returns {
            used.assert_unchanged("used");
        }
        if !record {
            words.assert_unchanged("neighbours");
            codes.assert_unchanged("codes");
        }
        if !saves && !forgets {
            heads.assert_unchanged("heads");
        }
        if !saves {
            held.assert_unchanged("held neighbours");
            held_codes.assert_unchanged("held codes");
        }
        if number != 0 {
            return Err(number);
        }
        let left = Lent {
            n,
            word: self.word,
            record: Record {
                neighbours: words.answer("neighbours"),
                codes: codes.answer("codes"),
                used: used.answer("used")[0],
            },
            heads: heads.answer("heads"),
            neighbours: held.answer("held neighbours"),
            codes: held_codes.answer("held codes"),
        };
        let measured = measures.then(|| measured(&answer, &determined));
        Ok((left, measured))
    }
}

/// The number of a group's call on a lent record. A measurement writes to the last two.
pub fn on(
    operation: Operation,
    (n, whose): (u64, raw::Whose),
    neighbours: &mut [u64],
    codes: &mut [u8],
    used: &mut u64,
    [answer, determined]: [&mut u8; 2],
) -> u8 {
    match operation {
        Operation::Gate(qubit, code) => {
            raw::group_gate(n, whose, neighbours, codes, *used, qubit, code)
        }
        Operation::Cz(a, b) => raw::group_cz(n, whose, neighbours, codes, *used, a, b),
        Operation::Measure(pauli, qubit, outcome) => raw::group_measure(
            n, whose, neighbours, codes, used, pauli, qubit, outcome, answer, determined,
        ),
        Operation::Complement(a) => raw::group_complement(n, whose, neighbours, codes, *used, a),
    }
}

/// The number of a group's observation, which writes to the last two, or renewal.
pub fn of(
    source: Source,
    (n, whose): (u64, raw::Whose),
    neighbours: &mut [u64],
    codes: &mut [u8],
    used: &mut u64,
    [answer, determined]: [&mut u8; 2],
) -> u8 {
    match source {
        Source::Observe(pauli, qubit, bit) => raw::group_observe(
            n, whose, neighbours, codes, used, pauli, qubit, bit, answer, determined,
        ),
        Source::Renew(qubit, code) => {
            raw::group_renew(n, whose, neighbours, codes, used, qubit, code)
        }
    }
}

/// A random record of 64 vertices without an edge between the groups, some of them used.
pub fn apart(random: &mut Random, word: u64) -> Record {
    let mut record = random_used_record(random, 64);
    for q in 0..64 {
        record.neighbours[q] &= own(word, (word >> q & 1) as u8);
        if random.below(3) == 0 && record.used >> q & 1 == 0 {
            isolate(&mut record.neighbours, q);
            record.codes[q] = 2 * random.below(12) as u8;
        }
    }
    record
}

/// The record with every vertex outside a word in +Z.
pub fn masked(record: &Record, own: u64) -> Record {
    let mut left = record.clone();
    for q in (0..record.n()).filter(|q| own >> q & 1 == 0) {
        (left.neighbours[q], left.codes[q]) = (0, 8);
    }
    left.used &= own;
    left
}

/// A word of groups: one with few qubits, with any, with half, with none or with all.
pub fn random_word(random: &mut Random) -> u64 {
    let few = (0..1 + random.below(5)).fold(0, |word, _| word | 1 << random.below(64));
    let words = [few, !few, random.word(), !0 << 32, 0, !0];
    words[[0, 0, 0, 1, 1, 1, 2, 2, 3, 4, 5][random.below(11)]]
}

/// One random fault of the record, of the store or of the n, or an edge between the groups.
pub fn damage(random: &mut Random, lent: &mut Lent) {
    let (q, p) = random.pair_below(64);
    let (i, j) = (random.below(8), random.below(8));
    let (bit, place) = (1 << random.below(64), 64 * i + random.below(64));
    match random.below(18) {
        0 => lent.n = [0, 1, 63, 65, u64::MAX][random.below(5)],
        1 => drop(lent.record.neighbours.pop()),
        2 => lent.record.codes.push(8),
        3 => put(&mut lent.record.codes, q, 24 + random.below(200) as u8),
        4 => put(&mut lent.record.neighbours, q, bit),
        5 => lent.record.used ^= bit,
        6 | 7 => join(lent, q, p),
        8 => drop(lent.heads.pop()),
        9 => lent.heads.extend([[0, 64, 5][random.below(3)], 1, 0]),
        10 => lent.neighbours.push(0),
        11 => drop(lent.codes.pop()),
        12 => put(&mut lent.heads, 3 * i, [1, 63, 65, u64::MAX][j % 4]),
        13 => put(&mut lent.heads, 3 * i + 2, bit),
        14 => put(&mut lent.neighbours, place, bit),
        15 => put(&mut lent.codes, place, 24 + random.below(200) as u8),
        16 => {
            let name = lent.heads.get(3 * j + 1).copied().unwrap_or(0);
            put(&mut lent.heads, 3 * i + 1, name);
        }
        _ => reach_out(lent, i, q, p),
    }
}

/// An edge of the record, between two vertices that are not used where there are such.
fn join(lent: &mut Lent, q: usize, p: usize) {
    if lent.record.used >> q & 1 == 0 && lent.record.used >> p & 1 == 0 {
        put_bit(&mut lent.record.neighbours, q, p);
        put_bit(&mut lent.record.neighbours, p, q);
    }
}

/// An edge of a held record.
fn reach_out(lent: &mut Lent, i: usize, q: usize, p: usize) {
    let used = lent.heads.get(3 * i + 2).copied().unwrap_or(0);
    if used >> q & 1 == 0 && used >> p & 1 == 0 && lent.neighbours.len() == 512 {
        put_bit(&mut lent.neighbours, 64 * i + q, p);
        put_bit(&mut lent.neighbours, 64 * i + p, q);
    }
}

/// Sets a place, where there is one.
fn put<T>(places: &mut [T], j: usize, value: T) {
    if let Some(place) = places.get_mut(j) {
        *place = value;
    }
}

/// Sets a bit of a place, where there is one.
fn put_bit(places: &mut [u64], j: usize, bit: usize) {
    if let Some(place) = places.get_mut(j) {
        *place |= 1 << bit;
    }
}
