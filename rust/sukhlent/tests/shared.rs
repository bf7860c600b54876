//! Two groups on one record: every refusal on damaged arguments, what accepted calls leave, and the
//! request's cases.

use crate::common::reference::{group_after, group_refusal};
use crate::common::shared::{damage, own, random_word, GroupCall, Lent};
use crate::common::{Operation, Random};
use std::collections::BTreeSet;
use sukhlent::{codes, cz, gate, Pauli, Record, Refusal, Shared};

/// The lower half is group 0, the upper group 1.
const HALVES: u64 = !0 << 32;

#[test]
fn damaged_arguments_give_the_numbers_due_and_accepted_calls_leave_what_is_due() {
    let mut random = Random::new(1300);
    let mut seen: [BTreeSet<u8>; 7] = Default::default();
    for turn in 0..30_000 {
        let word = random_word(&mut random);
        let mut lent = Lent::random(&mut random, word);
        (0..random.below(3)).for_each(|_| damage(&mut random, &mut lent));
        let group = match random.below(30) {
            0 => [2, 3, 255][random.below(3)],
            other => (other % 2) as u8,
        };
        let kind = turn % 7;
        let call = GroupCall::random(&mut random, kind, own(word, group));
        let due = group_refusal(&lent, group, call);
        let left = lent.call(group, call);
        seen[kind].insert(due);
        match left {
            Err(number) => assert_eq!(number, due, "{call:?} of {group} on {lent:?}"),
            Ok(left) => {
                assert_eq!(due, 0, "{call:?} of {group} on {lent:?}");
                let due = group_after(&lent, group, call);
                assert_eq!(left, due, "{call:?} of {group} on {lent:?}");
            }
        }
    }
    let in_place = BTreeSet::from([0, 2, 4, 6, 7, 19, 8, 16]);
    for kind in [0, 1, 3] {
        assert_eq!(seen[kind], in_place, "kind {kind}");
    }
    let measured = in_place.iter().copied().chain([14]).collect();
    assert_eq!(seen[2], measured);
    assert_eq!(seen[4], BTreeSet::from([0, 2, 4, 6, 7, 19, 18]));
    for kind in [5, 6] {
        let named = BTreeSet::from([0, 2, 4, 6, 7, 19, 17]);
        assert_eq!(seen[kind], named, "kind {kind}");
    }
}

/// One number of a call of group 0 of two halves.
fn number(record: &Record, group: u8, call: GroupCall) -> u8 {
    let lent = Lent {
        record: record.clone(),
        ..Lent::start(HALVES)
    };
    lent.call(group, call).err().unwrap_or(0)
}

#[test]
fn the_numbers_of_the_requests_cases() {
    let start = Record::zeros(64);
    let gate = |q, code| GroupCall::On(Operation::Gate(q, code));
    let cz = |a, b| GroupCall::On(Operation::Cz(a, b));
    let apart = [
        (gate(40, 0), 19),
        (gate(64, 0), 8),
        (gate(40, 24), 6),
        (cz(40, 40), 19),
        (cz(64, 64), 8),
        (cz(0, 40), 19),
        (cz(40, 64), 19),
        (cz(0, 0), 8),
        (cz(0, 1), 0),
        (GroupCall::Return(7), 17),
        (GroupCall::Save(7), 0),
    ];
    for (call, due) in apart {
        assert_eq!(number(&start, 0, call), due, "{call:?}");
        assert_eq!(number(&start, 2, call), 6, "{call:?} of group 2");
    }
    let mut edge = start.clone();
    (edge.neighbours[0], edge.neighbours[40]) = (1 << 40, 1);
    let crossed = [
        (0, gate(1, 0), 19),
        (0, gate(1, 24), 6),
        (0, GroupCall::Return(7), 19),
        (0, GroupCall::Forget(7), 19),
        (0, GroupCall::Save(7), 19),
        (1, gate(64, 0), 19),
        (1, cz(50, 51), 19),
        (1, GroupCall::On(Operation::Complement(50)), 19),
        (1, GroupCall::On(Operation::Measure(3, 50, 0)), 19),
        (1, GroupCall::On(Operation::Measure(0, 50, 0)), 6),
    ];
    for (group, call, due) in crossed {
        assert_eq!(number(&edge, group, call), due, "{call:?} of {group}");
    }
    // The used bit of a vertex outside the group is checked with the record, not with the call.
    let used = Record {
        used: 1 << 40,
        ..start
    };
    assert_eq!(number(&used, 0, gate(40, 0)), 19);
    assert_eq!(number(&used, 1, gate(40, 0)), 16);
}

/// A group above 1 has no place: a store of 48 heads has a wrong length, also where an n stands in them.
#[test]
fn words_beyond_the_heads_are_no_place_of_a_group() {
    let mut long = Lent::start(HALVES);
    long.heads.resize(48, 5);
    let calls = [
        GroupCall::Save(7),
        GroupCall::Return(7),
        GroupCall::Forget(7),
    ];
    for group in [0, 1, 2, 3, 255] {
        for call in calls {
            assert_eq!(long.call(group, call), Err(4), "{call:?} of {group}");
        }
    }
}

#[test]
fn a_gate_reduces_its_own_groups_vertices_alone() {
    let shared = Shared::new(HALVES);
    let [lower, upper] = shared.groups();
    lower.complement(0).unwrap();
    upper.complement(40).unwrap();
    let codes = |shared: &Shared| (shared.record().codes[0], shared.record().codes[40]);
    assert_eq!(codes(&shared), (20, 20));
    upper.gate(41, 0).unwrap();
    assert_eq!(codes(&shared), (20, 8));
    lower.measure(Pauli::Z, 1, 0).unwrap();
    assert_eq!(codes(&shared), (8, 8));
}

#[test]
fn an_edge_between_the_groups_stops_every_group_call_until_it_is_gone() {
    let shared = Shared::new(HALVES);
    let [lower, upper] = shared.groups();
    for group in [&lower, &upper] {
        group.save([1; 8]).unwrap();
    }
    shared.operate(|record| {
        gate(record, 3, codes::H).unwrap();
        gate(record, 50, codes::H).unwrap();
        cz(record, 3, 50).unwrap();
    });
    let before = shared.record();
    let refused = Err(Refusal::OtherGroup);
    for (group, q) in [(&lower, 5), (&upper, 55)] {
        assert_eq!(group.gate(q, codes::H), refused);
        assert_eq!(group.cz(q, q + 1), refused);
        assert_eq!(group.measure(Pauli::Z, q, 0), Err(Refusal::OtherGroup));
        assert_eq!(group.complement(q), refused);
        assert_eq!(group.save([1; 8]), refused);
        assert_eq!(group.return_to([1; 8]), refused);
        assert_eq!(group.forget([1; 8]), refused);
        assert_eq!(group.names(), [[1; 8]]);
    }
    assert_eq!(shared.record(), before);
    shared.operate(|record| cz(record, 3, 50)).unwrap();
    lower.return_to([1; 8]).unwrap();
    assert_eq!(lower.record(), Record::zeros(64));
    assert_eq!(upper.record().codes[50], 0);
}

#[test]
fn a_record_with_too_few_words_is_refused_and_still_seen() {
    let shared = Shared::new(HALVES);
    let [lower, upper] = shared.groups();
    shared.operate(|record| record.neighbours.truncate(3));
    for group in [&lower, &upper] {
        assert_eq!(group.gate(0, codes::H), Err(Refusal::Length));
        assert_eq!(group.record().neighbours, [0; 3]);
    }
    shared.operate(|record| *record = Record::zeros(70));
    assert_eq!(lower.gate(0, codes::H), Err(Refusal::Count));
    assert_eq!(lower.record(), Record::zeros(70));
}

#[test]
fn each_group_has_four_names_of_its_own() {
    let shared = Shared::new(HALVES);
    let [lower, upper] = shared.groups();
    let names: Vec<[u8; 8]> = (0..4).map(|name| [name; 8]).collect();
    for (turn, &name) in names.iter().enumerate() {
        lower.save(name).unwrap();
        lower.gate(turn, codes::X).unwrap();
        upper.gate(40 + turn, codes::H).unwrap();
        upper.save(name).unwrap();
    }
    assert_eq!(lower.save([9; 8]), Err(Refusal::Full));
    assert_eq!(upper.save([9; 8]), Err(Refusal::Full));
    let there = upper.record();
    for (turn, &name) in names.iter().enumerate() {
        lower.return_to(name).unwrap();
        let flipped = lower.record().codes.iter().filter(|&&c| c == 10).count();
        assert_eq!(flipped, turn);
    }
    assert_eq!(upper.record(), there);
    lower.forget(names[2]).unwrap();
    assert_eq!(lower.forget(names[2]), Err(Refusal::NotHeld));
    lower.save([9; 8]).unwrap();
    assert_eq!(lower.names(), [names[0], names[1], [9; 8], names[3]]);
    assert_eq!(upper.names(), names);
}

#[test]
fn two_threads_each_with_its_own_group_see_what_they_see_alone() {
    let run = |group: &sukhlent::Group<'_>, seed: u64| {
        let mut random = Random::new(seed);
        let qubits: Vec<usize> = group.qubits().collect();
        let mut seen = Vec::new();
        for _ in 0..400 {
            let (a, b) = random.pair_below(qubits.len());
            let (a, b) = (qubits[a], qubits[b]);
            let name = [random.below(5) as u8; 8];
            let answer = match random.below(7) {
                0 => group.gate(a, random.below(24) as u8).map(|()| None),
                1 => group.cz(a, b).map(|()| None),
                2 => group.measure(Pauli::X, a, 0).map(Some),
                3 => group.complement(a).map(|()| None),
                4 => group.save(name).map(|()| None),
                5 => group.return_to(name).map(|()| None),
                _ => group.forget(name).map(|()| None),
            };
            seen.push((answer, group.record(), group.names()));
        }
        seen
    };
    for seed in 0..4 {
        let alone = Shared::new(0x00ff_0f0f_3333_5555);
        let due = alone.groups().map(|group| run(&group, seed));
        let shared = Shared::new(0x00ff_0f0f_3333_5555);
        let [zero, one] = shared.groups();
        let seen = std::thread::scope(|scope| {
            let other = scope.spawn(|| run(&one, seed));
            [run(&zero, seed), other.join().unwrap()]
        });
        assert!(seen == due, "seed {seed}");
    }
}
