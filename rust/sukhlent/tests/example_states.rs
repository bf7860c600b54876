//! The examples of document 01 that are about states, and the comparisons of one qubit, followed on
//! state vectors.

use crate::common::vectors::{assert_stabilized, matrix, signed_rows, state_of};
use crate::common::{parsed, rows};
use simulator::{Matrix2, Row, State};
use sukhlent::{check, compare, expand, measure, reduce};
use sukhlent::{GeneratorList, Measured, Pauli, Record, Refusal};

/// The state of a list that has one.
fn vector(list: &GeneratorList) -> State {
    State::stabilized_by(list.n(), &signed_rows(list)).expect("a state")
}

fn near(a: f64, b: f64) -> bool {
    (a - b).abs() < 1e-9
}

/// Whether two states are the same up to a phase.
fn same(a: &State, b: &State) -> bool {
    near(a.overlap(b), 1.0)
}

/// The record stands for the state: by its expansion, and by its graph and codes.
fn assert_stands_for(record: &Record, state: &State) {
    assert_stabilized(state, &expand(record).unwrap());
    assert!(same(&state_of(record), state), "{record:?}");
}

/// The state with the matrices of a choice applied.
fn carried(state: &State, choice: &[u8]) -> State {
    let mut state = state.clone();
    for (q, &code) in choice.iter().enumerate() {
        state.apply(q, &matrix(code));
    }
    state
}

/// The dimension of the space on which every generator is +1, for generators that commute: the
/// trace of the product of their projections.
fn dimension(list: &GeneratorList) -> f64 {
    let weight = |y| {
        let mut state = State::basis(list.n(), y);
        let mut weight = 1.0;
        for row in signed_rows(list) {
            weight *= state.probability(&row, 0);
            match state.project(&row, 0) {
                Some(next) => state = next,
                None => return 0.0,
            }
        }
        weight
    };
    (0..1 << list.n()).map(weight).sum()
}

#[test]
fn reduced_records_stand_for_the_states_of_their_lists() {
    let pairs = [["XX", "ZZ"], ["-XX", "ZZ"], ["XX", "-YY"]].map(|texts| parsed(&texts));
    let single = ["X", "-X", "Y", "-Y", "Z", "-Z"].map(|text| parsed(&[text]));
    for list in pairs.iter().chain(&single) {
        assert!(near(dimension(list), 1.0), "{list:?}");
        assert_stands_for(&reduce(list).unwrap(), &vector(list));
    }
}

#[test]
fn z_measured_twice_on_a_bell_state() {
    let bell = parsed(&["XX", "ZZ"]);
    let mut record = reduce(&bell).unwrap();
    let mut state = vector(&bell);
    // Qubit, bit, the bit's probability, and whether it is determined where it is possible.
    let steps = [
        (0, 1, 0.5, Some(false)),
        (1, 0, 0.0, None),
        (1, 1, 1.0, Some(true)),
    ];
    for (q, bit, probability, determined) in steps {
        let z = Row::new(0, 1 << q, 0);
        assert!(near(state.probability(&z, bit), probability), "qubit {q}");
        let answer = measure(&mut record, Pauli::Z, q, bit);
        let due = determined.map(|determined| Measured {
            outcome: bit,
            determined,
        });
        assert_eq!(answer, due.ok_or(Refusal::Contradicted));
        let after = state.project(&z, bit);
        assert_eq!(
            after.is_none(),
            determined.is_none(),
            "refused where impossible"
        );
        let after = after.unwrap_or_else(|| state.clone());
        assert_eq!(same(&after, &state), determined != Some(false), "kept");
        assert_stands_for(&record, &after);
        state = after;
    }
    assert!(same(&state, &State::basis(2, 0b11)));
}

#[test]
fn refused_lists_fix_no_state() {
    // With whatever signs, generators that do not commute have no state in common.
    let clashing = parsed(&["XI", "ZI"]);
    assert_eq!(check(&clashing), Err(Refusal::Anticommute));
    for signs in [[0, 0], [0, 1], [1, 0], [1, 1]] {
        let signed = GeneratorList {
            signs: signs.to_vec(),
            ..clashing.clone()
        };
        assert!(State::stabilized_by(2, &signed_rows(&signed)).is_none());
    }
    // Dependent ones leave more than one state, or none.
    let dependent: [(&[&str], f64); 6] = [
        (&["XX", "XX"], 2.0),
        (&["XX", "II"], 2.0),
        (&["II", "ZZ"], 2.0),
        (&["XX", "-XX"], 0.0),
        (&["-II", "ZZ"], 0.0),
        (&["XXI", "IXX", "XIX"], 2.0),
    ];
    for (texts, due) in dependent {
        let list = parsed(texts);
        let rows = rows(&list);
        assert!(rows.iter().all(|a| rows.iter().all(|b| a.commutes(b))));
        assert_eq!(check(&list), Err(Refusal::Dependent), "{texts:?}");
        assert!(near(dimension(&list), due), "{texts:?}");
    }
}

#[test]
fn the_choices_of_one_qubit_are_the_first_that_carry_the_state() {
    let names = ["X", "-X", "Y", "-Y", "Z", "-Z"];
    for (a, b) in names.into_iter().flat_map(|a| names.map(|b| (a, b))) {
        let [first, second] = [a, b].map(|text| parsed(&[text]));
        let [from, to] = [&first, &second].map(vector);
        let carries = |code: &u8| same(&carried(&from, &[*code]), &to);
        let due = (0..24).find(carries).expect("a code");
        assert_eq!(compare(&first, &second).unwrap().choice, [due], "{a} {b}");
    }
    // Two of them as numbers.
    let choice = |a, b| compare(&parsed(&[a]), &parsed(&[b])).unwrap().choice;
    assert_eq!(choice("Z", "Y"), [12]);
    assert_eq!(choice("Y", "X"), [5]);
}

/// The number of choices, qubit q and those above, that carry a state to another up to a phase.
fn count_carrying(state: &State, to: &State, q: usize, matrices: &[Matrix2]) -> usize {
    if q == state.n() {
        return usize::from(same(state, to));
    }
    let sent = |matrix| {
        let mut state = state.clone();
        state.apply(q, matrix);
        count_carrying(&state, to, q + 1, matrices)
    };
    matrices.iter().map(sent).sum()
}

#[test]
fn no_choice_carries_the_path_to_the_star() {
    let matrices: Vec<Matrix2> = (0..24).map(matrix).collect();
    let [path, star] = [[2, 5, 10, 4], [14, 1, 1, 1]].map(|neighbours| Record {
        neighbours: neighbours.to_vec(),
        codes: vec![0; 4],
        used: 0,
    });
    let [from, to] = [&path, &star].map(state_of);
    let [first, second] = [&path, &star].map(|record| expand(record).unwrap());
    assert_stabilized(&from, &first);
    assert_stabilized(&to, &second);
    assert_eq!(count_carrying(&from, &to, 0, &matrices), 0);
    assert_eq!(compare(&first, &second), Err(Refusal::Inequivalent));
    assert_eq!(compare(&second, &first), Err(Refusal::Inequivalent));
    // The same count does find the choices from the path to itself.
    assert!(count_carrying(&from, &from, 0, &matrices) > 0);
    let itself = compare(&first, &first).unwrap();
    assert!(same(&carried(&from, &itself.choice), &from));
}
