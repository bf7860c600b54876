//! The tableau against state vectors.

use random::Random;
use simulator::{find, Complex, Matrix2, Row, State};
use tableau::{Measured, Tableau};

/// The matrix of a code; letters are numbered 2z + x.
fn matrix(code: u8) -> Matrix2 {
    let (x, z) = [(1, 2), (3, 2), (2, 1), (1, 3), (3, 1), (2, 3)][usize::from(code / 4)];
    find((2 * (code / 2 % 2), x), (2 * (code % 2), z))
}

fn assert_stabilized(state: &State, tableau: &Tableau) {
    for row in tableau.generators() {
        let value = state.expectation(&Row::new(2 * row.sign(), row.z, row.x));
        assert!(value.approx_eq(Complex::ONE), "{row:?} has {value:?}");
    }
}

/// The generators commute and are independent.
fn assert_full(tableau: &Tableau) {
    let rows = tableau.generators();
    assert!(rows.iter().all(|a| rows.iter().all(|b| !a.clashes(b))));
    let mut words: Vec<u128> = rows
        .iter()
        .map(|row| u128::from(row.x) << 64 | u128::from(row.z))
        .collect();
    while let Some(word) = words.pop() {
        assert_ne!(word, 0, "dependent: {rows:?}");
        let lowest = word & word.wrapping_neg();
        for other in words.iter_mut().filter(|other| **other & lowest != 0) {
            *other ^= word;
        }
    }
}

fn measure(state: &mut State, pauli: u8, q: usize, bit: u8) -> Option<Measured> {
    let row = match pauli {
        1 => Row::new(0, 0, 1 << q),
        2 => Row::new(0, 1 << q, 1 << q),
        _ => Row::new(0, 1 << q, 0),
    };
    let probability = state.probability(&row, bit);
    if probability < 0.25 {
        return None;
    }
    *state = state.project(&row, bit).unwrap();
    Some(Measured {
        outcome: bit,
        determined: probability > 0.75,
    })
}

/// The values of all rows are those of the state.
fn assert_values(state: &State, tableau: &Tableau) {
    let n = tableau.n();
    for (z, x) in (0..1 << n).flat_map(|z| (0..1 << n).map(move |x| (z, x))) {
        let value = state.expectation(&Row::new(0, z, x));
        let due = match tableau.value(&tableau::Row::letters(z, x)) {
            Some(sign) => Complex::ONE.scale(1.0 - 2.0 * f64::from(sign)),
            None => Complex::ZERO,
        };
        assert!(value.approx_eq(due), "{z:b}, {x:b} has {value:?}");
    }
}

#[test]
fn seeded_calls_against_state_vectors() {
    let matrices: Vec<Matrix2> = (0..24).map(matrix).collect();
    let mut seen = [[0; 2]; 3];
    for seed in 0..200 {
        let mut random = Random::new(seed);
        let n = 1 + seed as usize % 6;
        let (mut tableau, mut state) = (Tableau::zero(n), State::zero(n));
        for _ in 0..100 {
            let (a, b) = (random.below(n), random.below(n));
            match random.below(3) {
                0 => {
                    let code = random.below(24);
                    tableau.gate(a, code as u8);
                    state.apply(a, &matrices[code]);
                }
                1 if a != b => {
                    tableau.cz(a, b);
                    state.cz(a, b);
                }
                _ => {
                    let (pauli, bit) = (1 + random.below(3) as u8, random.below(2) as u8);
                    let answer = tableau.measure(pauli, a, bit);
                    assert_eq!(answer, measure(&mut state, pauli, a, bit), "seed {seed}");
                    let kind = answer.map_or(2, |answer| usize::from(answer.determined));
                    seen[kind][usize::from(bit)] += 1;
                }
            }
            assert_full(&tableau);
            assert_stabilized(&state, &tableau);
        }
        if n < 5 {
            assert_values(&state, &tableau);
        }
    }
    assert!(seen.iter().flatten().all(|&times| times > 100), "{seen:?}");
}
