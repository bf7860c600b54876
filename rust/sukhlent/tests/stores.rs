//! Named states: against a map, every refusal on damaged stores, and the request's cases.

use crate::common::store::{damage_store, StoreCall};
use crate::common::{random_used_record, Random};
use std::collections::{BTreeSet, HashMap};
use sukhlent::{Record, Refusal, Store};

#[test]
fn a_hundred_thousand_calls_agree_with_a_map() {
    let mut random = Random::new(12);
    let (mut store, mut map) = (Store::new(), HashMap::<[u8; 8], Record>::new());
    let mut answers = [0; 6];
    for call in 0..100_000 {
        let name = (random.below(11) as u64 * 0x0101_0101_0101_0101).to_ne_bytes();
        match random.below(3) {
            0 => {
                let n = 1 + random.below(if call % 50 == 0 { 64 } else { 6 });
                let record = random_used_record(&mut random, n);
                let full = map.len() == 8 && !map.contains_key(&name);
                let due = if full { Err(Refusal::Full) } else { Ok(()) };
                assert_eq!(store.save(&record, name), due);
                if !full {
                    map.insert(name, record);
                }
                answers[usize::from(full)] += 1;
            }
            1 => {
                let due = map.get(&name).cloned().ok_or(Refusal::NotHeld);
                answers[2 + usize::from(due.is_err())] += 1;
                assert_eq!(store.return_to(name), due);
            }
            _ => {
                let due = map.remove(&name).map(|_| ()).ok_or(Refusal::NotHeld);
                answers[4 + usize::from(due.is_err())] += 1;
                assert_eq!(store.forget(name), due);
            }
        }
        assert_eq!(
            store.names().collect::<BTreeSet<_>>(),
            map.keys().copied().collect()
        );
    }
    assert!(answers.iter().all(|&count| count > 100), "{answers:?}");
}

#[test]
fn damaged_stores_give_the_numbers_due_and_no_byte_changes() {
    let mut random = Random::new(13);
    let mut seen = [BTreeSet::new(), BTreeSet::new(), BTreeSet::new()];
    for _ in 0..60_000 {
        let n = 1 + random.below(8);
        let mut call = StoreCall::random(&mut random, n);
        (0..random.below(3)).for_each(|_| damage_store(&mut random, &mut call));
        let saved = call.save();
        assert_eq!(
            saved.as_ref().err().copied().unwrap_or(0),
            call.save_due(),
            "{call:?}"
        );
        seen[0].insert(call.save_due());
        if let Ok(after) = saved {
            assert_eq!(after.place(), Some(expected_place(&call)));
            let places = (64, 64);
            assert_eq!(
                StoreCall { places, ..after }.return_to(),
                Ok(call.record.clone())
            );
        }
        let returned = call.return_to();
        assert_eq!(returned.err().unwrap_or(0), call.return_due(), "{call:?}");
        seen[1].insert(call.return_due());
        let forgotten = call.forget();
        assert_eq!(
            forgotten.as_ref().err().copied().unwrap_or(0),
            call.forget_due(),
            "{call:?}"
        );
        seen[2].insert(call.forget_due());
        if let Ok(heads) = forgotten {
            assert_eq!(
                StoreCall {
                    heads,
                    ..call.clone()
                }
                .return_to(),
                Err(call.after_forget())
            );
        }
    }
    assert_eq!(seen[0], BTreeSet::from([0, 2, 4, 5, 6, 7, 18]));
    assert_eq!(seen[1], BTreeSet::from([0, 2, 4, 5, 6, 7, 17]));
    assert_eq!(seen[2], BTreeSet::from([0, 2, 4, 5, 6, 7, 17]));
}

/// The place of the name, else the smallest free one.
fn expected_place(call: &StoreCall) -> usize {
    let free = || (0..8).find(|i| call.heads[3 * i] == 0).unwrap();
    call.place().unwrap_or_else(free)
}

impl StoreCall {
    /// What a return answers after its name was forgotten: 17, or 4 where its buffers are wrong.
    fn after_forget(&self) -> u8 {
        if self.places == (64, 64) {
            17
        } else {
            4
        }
    }
}

#[test]
fn the_cases_of_the_request() {
    let names: Vec<[u8; 8]> = (b'A'..=b'H').map(|letter| [letter; 8]).collect();
    let mut store = Store::new();
    assert_eq!(store.return_to(names[0]), Err(Refusal::NotHeld));
    assert_eq!(store.forget(names[0]), Err(Refusal::NotHeld));
    for (n, &name) in names.iter().enumerate() {
        store.save(&Record::zeros(n + 1), name).unwrap();
    }
    let other = Record {
        used: 0b100,
        ..Record::zeros(3)
    };
    assert_eq!(store.save(&other, [b'Z'; 8]), Err(Refusal::Full));
    assert_eq!(store.save(&other, names[0]), Ok(()));
    assert_eq!(store.return_to(names[0]), Ok(other.clone()));
    store.forget(names[2]).unwrap();
    store.save(&other, [b'Z'; 8]).unwrap();
    assert_eq!(store.names().nth(2), Some([b'Z'; 8]));
    for (n, &name) in names
        .iter()
        .enumerate()
        .filter(|(n, _)| ![0, 2].contains(n))
    {
        assert_eq!(store.return_to(name), Ok(Record::zeros(n + 1)));
    }
    assert_eq!(store.return_to(names[2]), Err(Refusal::NotHeld));
}

#[test]
fn eight_zero_bytes_are_a_name_and_sixty_four_qubits_fit_everywhere() {
    let mut random = Random::new(14);
    let mut store = Store::new();
    let records: Vec<Record> = (0..8)
        .map(|_| random_used_record(&mut random, 64))
        .collect();
    for (name, record) in (0..8).zip(&records) {
        store.save(record, [name; 8]).unwrap();
    }
    for (name, record) in (0..8).zip(&records) {
        assert_eq!(store.return_to([name; 8]).as_ref(), Ok(record));
    }
}
