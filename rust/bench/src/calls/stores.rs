//! `save`, `return` and `forget` on a full store, beside copying the buffers of the record, or clearing
//! the head, without a check.

use super::Line;
use crate::seeded::{random_record, Random};
use crate::timing::Ready;
use sukhlent::{raw, Record};

/// The number of stores.
const STORES: usize = 64;
/// The number of stores in a timed sample.
const AT_ONCE: usize = 4;
/// The places of a store.
const PLACES: usize = 8;

/// The three buffers.
#[derive(Clone)]
pub(super) struct Buffers {
    heads: [u64; 3 * PLACES],
    neighbours: [u64; 64 * PLACES],
    codes: [u8; 64 * PLACES],
}

impl Buffers {
    /// Of a store that holds nothing.
    pub(super) fn empty() -> Buffers {
        Buffers {
            heads: [0; 3 * PLACES],
            neighbours: [0; 64 * PLACES],
            codes: [0; 64 * PLACES],
        }
    }

    /// The buffers, as the calls take them.
    pub(super) fn parts(&mut self) -> (&mut [u64], &mut [u64], &mut [u8]) {
        (&mut self.heads, &mut self.neighbours, &mut self.codes)
    }
}

/// A store of eight records, a further record, and one of the names.
pub struct Case {
    store: Buffers,
    record: Record,
    name: u64,
}

/// What a return writes.
type Returned = (u64, [u64; 64], [u8; 64], u64);

/// The line of saves of n vertices under a held name.
pub fn saving(n: usize) -> Line {
    let names = ("save", n, "random records, in a store that is full");
    Line::measured(names, &cases(n), AT_ONCE, [saved, saved_by_copying])
}

/// The line of returns.
pub fn returning(n: usize) -> Line {
    let names = ("return", n, "random records, from a store that is full");
    Line::measured(names, &cases(n), AT_ONCE, [returned, returned_by_copying])
}

/// The line of forgetting a held name.
pub fn forgetting(n: usize) -> Line {
    let names = ("forget", n, "random records, in a store that is full");
    Line::measured(names, &cases(n), AT_ONCE, [forgotten, cleared])
}

fn cases(n: usize) -> Vec<Case> {
    let mut random = Random::new(n as u64);
    let cases: Vec<Case> = (0..STORES)
        .map(|_| {
            let mut store = Buffers::empty();
            let names: [u64; PLACES] = std::array::from_fn(|_| random.word());
            for name in names {
                assert_eq!(save(&mut store, &random_record(&mut random, n), name), 0);
            }
            let name = names[random.below(PLACES)];
            let record = random_record(&mut random, n);
            Case {
                store,
                record,
                name,
            }
        })
        .collect();
    cases.iter().for_each(assert_same_answers);
    cases
}

fn save(store: &mut Buffers, record: &Record, name: u64) -> u8 {
    let n = record.n() as u64;
    let lent = (n, &record.neighbours[..], &record.codes[..], record.used);
    let (heads, neighbours, codes) = store.parts();
    raw::save(lent, name, heads, neighbours, codes)
}

fn forget(store: &mut Buffers, name: u64) -> u8 {
    let (heads, neighbours, codes) = store.parts();
    raw::forget(name, heads, neighbours, codes)
}

fn clear(store: &mut Buffers, name: u64) -> u8 {
    let i = place(store, name);
    store.heads[3 * i] = 0;
    0
}

/// The place that holds a name.
fn place(store: &Buffers, name: u64) -> usize {
    let held = |i: &usize| store.heads[3 * i] != 0 && store.heads[3 * i + 1] == name;
    (0..PLACES).find(held).expect("a held name")
}

fn copy_in(store: &mut Buffers, record: &Record, name: u64) -> u8 {
    let (i, n) = (place(store, name), record.n());
    store.heads[3 * i..3 * i + 3].copy_from_slice(&[n as u64, name, record.used]);
    store.neighbours[64 * i..64 * i + n].copy_from_slice(&record.neighbours);
    store.codes[64 * i..64 * i + n].copy_from_slice(&record.codes);
    0
}

fn give_back(store: &Buffers, name: u64) -> (u8, Returned) {
    let (mut n, mut words, mut bytes, mut used) = (0, [0; 64], [0; 64], 0);
    let lent = (&store.heads[..], &store.neighbours[..], &store.codes[..]);
    let number = raw::return_to(name, lent, &mut n, &mut words, &mut bytes, &mut used);
    (number, (n, words, bytes, used))
}

fn copy_out(store: &Buffers, name: u64) -> (u8, Returned) {
    let i = place(store, name);
    let (n, used) = (store.heads[3 * i], store.heads[3 * i + 2]);
    let (mut words, mut bytes, count) = ([0; 64], [0; 64], n as usize);
    words[..count].copy_from_slice(&store.neighbours[64 * i..64 * i + count]);
    bytes[..count].copy_from_slice(&store.codes[64 * i..64 * i + count]);
    (0, (n, words, bytes, used))
}

fn saved(cases: &[Case]) -> Ready<'_> {
    ready_to_save(save, cases)
}

fn saved_by_copying(cases: &[Case]) -> Ready<'_> {
    ready_to_save(copy_in, cases)
}

fn ready_to_save(call: fn(&mut Buffers, &Record, u64) -> u8, cases: &[Case]) -> Ready<'_> {
    let mut stores: Vec<Buffers> = cases.iter().map(|case| case.store.clone()).collect();
    Box::new(move || {
        cases.iter().zip(&mut stores).fold(0, |sum, (case, store)| {
            sum ^ u64::from(call(store, &case.record, case.name)) ^ store.neighbours[63]
        })
    })
}

fn returned(cases: &[Case]) -> Ready<'_> {
    ready_to_return(give_back, cases)
}

fn returned_by_copying(cases: &[Case]) -> Ready<'_> {
    ready_to_return(copy_out, cases)
}

fn ready_to_return(call: fn(&Buffers, u64) -> (u8, Returned), cases: &[Case]) -> Ready<'_> {
    Box::new(move || {
        cases.iter().fold(0, |sum, case| {
            let (number, (n, words, bytes, used)) = call(&case.store, case.name);
            sum ^ u64::from(number) ^ n ^ words[n as usize - 1] ^ u64::from(bytes[0]) ^ used
        })
    })
}

fn forgotten(cases: &[Case]) -> Ready<'_> {
    ready_to_forget(forget, cases)
}

fn cleared(cases: &[Case]) -> Ready<'_> {
    ready_to_forget(clear, cases)
}

fn ready_to_forget(call: fn(&mut Buffers, u64) -> u8, cases: &[Case]) -> Ready<'_> {
    let mut stores: Vec<Buffers> = cases.iter().map(|case| case.store.clone()).collect();
    Box::new(move || {
        cases.iter().zip(&mut stores).fold(0, |sum, (case, store)| {
            sum ^ u64::from(call(store, case.name)) ^ store.heads[0]
        })
    })
}

/// Panics unless call and copy write the same.
fn assert_same_answers(case: &Case) {
    let (mut by_call, mut by_copy) = (case.store.clone(), case.store.clone());
    assert_eq!(save(&mut by_call, &case.record, case.name), 0);
    copy_in(&mut by_copy, &case.record, case.name);
    assert_eq!(by_call.heads, by_copy.heads);
    assert_eq!(by_call.neighbours, by_copy.neighbours);
    assert_eq!(by_call.codes, by_copy.codes);
    assert_eq!(
        give_back(&by_call, case.name),
        copy_out(&by_copy, case.name)
    );
    assert_eq!(forget(&mut by_call, case.name), 0);
    clear(&mut by_copy, case.name);
    assert_eq!(by_call.heads, by_copy.heads);
}
