//! A group's save, return and forget, all eight places of the store taken, beside the call of that
//! name on the whole record and the same store.

use super::groups::{halves, WHOSE};
use super::stores::Buffers;
use super::Line;
use crate::seeded::Random;
use crate::timing::{Ready, Work};
use sukhlent::{raw, Record};

/// The number of stores.
const STORES: usize = 64;
/// The number of stores in a timed sample.
const AT_ONCE: usize = 4;

/// A store of four states of each group, the record, and one of the upper group's names.
#[derive(Clone)]
pub struct Case {
    store: Buffers,
    record: Record,
    name: u64,
}

/// A call on a case: its number.
type Call = fn(&mut Case) -> u8;

/// The lines of save, return and forget.
pub fn lines() -> [Line; 3] {
    let cases = cases();
    let kinds: [(&str, &str, [Work<Case>; 2]); 3] = [
        (
            "group_save",
            "a store that is full; save",
            [|cases| ready(group_save, cases), |cases| ready(save, cases)],
        ),
        (
            "group_return",
            "a store that is full; return",
            [
                |cases| ready(group_return, cases),
                |cases| ready(give_back, cases),
            ],
        ),
        (
            "group_forget",
            "a store that is full; forget",
            [
                |cases| ready(group_forget, cases),
                |cases| ready(forget, cases),
            ],
        ),
    ];
    kinds.map(|(call, name, works)| Line::measured((call, 64, name), &cases, AT_ONCE, works))
}

fn cases() -> Vec<Case> {
    let mut random = Random::new(64);
    let cases: Vec<Case> = (0..STORES).map(|_| case(&mut random)).collect();
    cases.iter().for_each(assert_same_answers);
    cases
}

fn case(random: &mut Random) -> Case {
    let mut store = Buffers::empty();
    let names: [u64; 8] = std::array::from_fn(|_| random.word());
    for (place, &name) in names.iter().enumerate() {
        let record = halves(random);
        let whose = (WHOSE.0, (place / 4) as u8);
        let (heads, words, codes) = store.parts();
        assert_eq!(
            raw::group_save(lent(&record), whose, name, heads, words, codes),
            0
        );
    }
    Case {
        store,
        record: halves(random),
        name: names[4 + random.below(4)],
    }
}

fn lent(record: &Record) -> raw::LentRecord<'_> {
    let Record {
        neighbours,
        codes,
        used,
    } = record;
    (64, neighbours, codes, *used)
}

fn group_save(case: &mut Case) -> u8 {
    let (heads, words, codes) = case.store.parts();
    raw::group_save(lent(&case.record), WHOSE, case.name, heads, words, codes)
}

fn save(case: &mut Case) -> u8 {
    let (heads, words, codes) = case.store.parts();
    raw::save(lent(&case.record), case.name, heads, words, codes)
}

fn group_return(case: &mut Case) -> u8 {
    let (heads, held, bytes) = case.store.parts();
    let (words, codes) = (&mut case.record.neighbours, &mut case.record.codes);
    let used = &mut case.record.used;
    raw::group_return(
        64,
        WHOSE,
        words,
        codes,
        used,
        case.name,
        (heads, held, bytes),
    )
}

fn give_back(case: &mut Case) -> u8 {
    let (heads, held, bytes) = case.store.parts();
    let (words, codes) = (&mut case.record.neighbours, &mut case.record.codes);
    let (mut n, used) = (0, &mut case.record.used);
    raw::return_to(case.name, (heads, held, bytes), &mut n, words, codes, used)
}

fn group_forget(case: &mut Case) -> u8 {
    let (heads, words, codes) = case.store.parts();
    raw::group_forget(lent(&case.record), WHOSE, case.name, heads, words, codes)
}

fn forget(case: &mut Case) -> u8 {
    let (heads, words, codes) = case.store.parts();
    raw::forget(case.name, heads, words, codes)
}

/// The calls of a sample on copies of the cases.
fn ready(call: Call, cases: &[Case]) -> Ready<'_> {
    let mut copies: Vec<Case> = cases.to_vec();
    Box::new(move || {
        copies.iter_mut().fold(0, |sum, case| {
            let number = call(case);
            sum ^ u64::from(number) ^ case.record.neighbours[63] ^ case.store.parts().0[12]
        })
    })
}

/// What a call leaves at the upper half: the heads, the words and codes of the record and of each place.
fn left(call: Call, case: &Case) -> (u8, Vec<u64>, Vec<u64>, Vec<u8>) {
    let mut case = case.clone();
    let number = call(&mut case);
    let (heads, held, bytes) = case.store.parts();
    let words = [&case.record.neighbours[..], held].concat();
    let codes = [&case.record.codes[..], bytes].concat();
    let words = words.chunks(64).flat_map(|part| part[32..].to_vec());
    let codes = codes.chunks(64).flat_map(|part| part[32..].to_vec());
    (number, heads.to_vec(), words.collect(), codes.collect())
}

/// Panics unless both calls of each kind accept a case and leave the same at the upper half.
fn assert_same_answers(case: &Case) {
    for [own, whole] in [
        [group_save as Call, save],
        [group_return, give_back],
        [group_forget, forget],
    ] {
        let group = left(own, case);
        assert_eq!(group.0, 0);
        assert!(group == left(whole, case), "name {:x}", case.name);
    }
}
