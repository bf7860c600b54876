//! The examples of document 01.

use crate::common::parsed as of;
use sukhlent::{check, expand, measure, reduce, GeneratorList, Measured, Record, Refusal};

fn record(neighbours: &[u64], codes: &[u8]) -> Record {
    Record {
        neighbours: neighbours.to_vec(),
        codes: codes.to_vec(),
        used: 0,
    }
}

fn assert_refused(texts: &[&str], refusal: Refusal) {
    assert_eq!(check(&of(texts)), Err(refusal), "{texts:?}");
    assert_eq!(reduce(&of(texts)), Err(refusal), "{texts:?}");
}

#[test]
fn bell_states() {
    let edge = record(&[2, 1], &[0, 8]);
    assert_eq!(reduce(&of(&["XX", "ZZ"])), Ok(edge.clone()));
    assert_eq!(reduce(&of(&["-XX", "ZZ"])), Ok(record(&[2, 1], &[2, 8])));
    assert_eq!(reduce(&of(&["XX", "-YY"])), Ok(edge.clone()));
    assert_eq!(check(&of(&["XX", "-YY"])), Ok(()));
    assert_eq!(expand(&edge), Ok(of(&["XX", "ZZ"])));
}

#[test]
fn one_qubit() {
    let codes = [
        ("X", 0),
        ("-X", 2),
        ("Y", 4),
        ("-Y", 6),
        ("Z", 8),
        ("-Z", 10),
    ];
    for (text, code) in codes {
        assert_eq!(reduce(&of(&[text])), Ok(record(&[0], &[code])), "{text}");
        assert_eq!(expand(&record(&[0], &[code])), Ok(of(&[text])), "{text}");
    }
}

#[test]
fn codes_that_no_reduction_gives() {
    // Code 12 sends X to X and Z to Y; 13 sends Z to -Y; 5 sends X to Y and Z to -Z; 6 X to -Y.
    assert_eq!(expand(&record(&[0], &[12])), Ok(of(&["X"])));
    assert_eq!(expand(&record(&[2, 1], &[12, 5])), Ok(of(&["-XZ", "YY"])));
    assert_eq!(expand(&record(&[2, 1], &[13, 6])), Ok(of(&["XZ", "YY"])));
}

#[test]
fn z_measured_twice_on_a_bell_state() {
    let mut state = reduce(&of(&["XX", "ZZ"])).unwrap();
    let first = measure(&mut state, sukhlent::Pauli::Z, 0, 1);
    let chosen = Measured {
        outcome: 1,
        determined: false,
    };
    assert_eq!(first, Ok(chosen));
    let left = |used| Record {
        used,
        ..record(&[0, 0], &[10, 10])
    };
    assert_eq!(state, left(1));
    let forbidden = measure(&mut state, sukhlent::Pauli::Z, 1, 0);
    assert_eq!(forbidden, Err(Refusal::Contradicted));
    assert_eq!(state, left(1));
    let second = measure(&mut state, sukhlent::Pauli::Z, 1, 1);
    let known = Measured {
        outcome: 1,
        determined: true,
    };
    assert_eq!(second, Ok(known));
    assert_eq!(state, left(3));
}

#[test]
fn sixty_four_qubits_pass_and_sixty_five_give_2() {
    let all = |n: usize| GeneratorList {
        signs: vec![1; n],
        z: (0..n).map(|q| 1u64.wrapping_shl(q as u32)).collect(),
        x: vec![0; n],
    };
    assert_eq!(check(&all(64)), Ok(()));
    assert_eq!(reduce(&all(64)), Ok(record(&[0; 64], &[10; 64])));
    assert_eq!(expand(&record(&[0; 64], &[10; 64])), Ok(all(64)));
    assert_eq!(check(&all(65)), Err(Refusal::Count));
    assert_eq!(reduce(&all(65)), Err(Refusal::Count));
    assert_eq!(expand(&record(&[0; 65], &[0; 65])), Err(Refusal::Count));
    assert_eq!(check(&GeneratorList::default()), Err(Refusal::Count));
    assert_eq!(expand(&Record::default()), Err(Refusal::Count));
}

#[test]
fn refused_lists() {
    assert_refused(&["XI", "ZI"], Refusal::Anticommute);
    assert_refused(&["XX", "XX"], Refusal::Dependent);
    assert_refused(&["XX", "-XX"], Refusal::Dependent);
    assert_refused(&["XX", "II"], Refusal::Dependent);
    assert_refused(&["-II", "ZZ"], Refusal::Dependent);
    assert_refused(&["I"], Refusal::Dependent);
    assert_refused(&["-I"], Refusal::Dependent);
    assert_refused(&["XXI", "IXX", "XIX"], Refusal::Dependent);
    // Dependent and not commuting: the earlier number.
    assert_refused(&["XII", "ZII", "ZII"], Refusal::Anticommute);
}
