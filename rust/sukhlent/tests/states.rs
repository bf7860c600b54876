//! Reduction and expansion against state vectors, on up to 8 qubits.

use crate::common::seeded::Gate;
use crate::common::vectors::{assert_stabilized, signed_rows, state_of};
use crate::common::{list, mixed, random_record, random_rows, stabilizers, Circuit, Random};
use simulator::{Matrix2, State};
use sukhlent::{check, expand, reduce};

/// The state that a circuit makes of its basis state.
fn run(circuit: &Circuit) -> State {
    let mut state = State::basis(circuit.n, circuit.start as usize);
    for gate in &circuit.gates {
        match *gate {
            Gate::H(q) => state.apply(q, &Matrix2::H),
            Gate::S(q) => state.apply(q, &Matrix2::S),
            Gate::Cz(a, b) => state.cz(a, b),
        }
    }
    state
}

#[test]
fn seeded_lists_against_state_vectors() {
    for seed in 0..800 {
        let mut random = Random::new(seed);
        let n = 1 + random.below(8);
        let length = random.below(6 * n + 1);
        let circuit = Circuit::random(&mut random, n, length);
        let state = run(&circuit);
        let given = list(&mixed(&mut random, &stabilizers(&circuit)));
        assert_stabilized(&state, &given);

        assert_eq!(check(&given), Ok(()), "seed {seed}");
        let record = reduce(&given).unwrap();
        let expanded = expand(&record).unwrap();
        assert_eq!(check(&expanded), Ok(()), "seed {seed}");
        assert_stabilized(&state, &expanded);
        let overlap = state.overlap(&state_of(&record));
        assert!((overlap - 1.0).abs() < 1e-9, "seed {seed}: {overlap}");
    }
}

#[test]
fn seeded_records_with_any_codes_against_state_vectors() {
    for seed in 0..400 {
        let mut random = Random::new(1000 + seed);
        let n = 1 + random.below(8);
        let record = random_record(&mut random, n);
        let expanded = expand(&record).unwrap();
        let state = state_of(&record);
        assert_stabilized(&state, &expanded);
        let reduced = reduce(&expanded).unwrap();
        assert_stabilized(&state, &expand(&reduced).unwrap());
    }
}

#[test]
fn records_are_equal_exactly_where_states_are() {
    let (mut equal, mut different) = (0, 0);
    for seed in 0..600 {
        let mut random = Random::new(2000 + seed);
        let n = 1 + random.below(3);
        let lists = [0, 1].map(|_| list(&random_rows(&mut random, n)));
        let states =
            (lists.each_ref()).map(|list| State::stabilized_by(n, &signed_rows(list)).unwrap());
        let same = (states[0].overlap(&states[1]) - 1.0).abs() < 1e-9;
        let [first, second] = lists.each_ref().map(|list| reduce(list).unwrap());
        assert_eq!(first == second, same, "seed {seed}");
        *(if same { &mut equal } else { &mut different }) += 1;
    }
    assert!(equal > 20 && different > 20, "{equal} and {different}");
}
