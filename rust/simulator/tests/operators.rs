//! State vectors and dense matrices describe the same operators.

use simulator::{
    find, images, letter_matrix, one_qubit_cliffords, row_matrix, Complex, Matrix, Matrix2, Row,
    State,
};

/// All rows on `n` qubits with all four phases.
fn all_rows(n: usize) -> impl Iterator<Item = Row> {
    let dim = 1u64 << n;
    (0..4).flat_map(move |phase| {
        (0..dim).flat_map(move |z| (0..dim).map(move |x| Row::new(phase, z, x)))
    })
}

/// A state without symmetries, so that different operators act differently.
fn generic_state(n: usize) -> State {
    let mut state = State::zero(n);
    for q in 0..n {
        let (sin, cos) = (0.4 + 0.3 * q as f64).sin_cos();
        let (phase_sin, phase_cos) = (0.7 + 0.5 * q as f64).sin_cos();
        let turn = Matrix2([
            [Complex::new(cos, 0.0), Complex::new(-sin, 0.0)],
            [Complex::new(sin, 0.0), Complex::new(cos, 0.0)],
        ]);
        let mut shift = Matrix2::I;
        shift.0[1][1] = Complex::new(phase_cos, phase_sin);
        state.apply(q, &(shift * turn));
        if q > 0 {
            state.cz(q - 1, q);
            state.apply(q - 1, &turn);
        }
    }
    state
}

fn times(m: &Matrix, state: &State) -> Vec<Complex> {
    let psi = state.amplitudes();
    (0..psi.len())
        .map(|r| (psi.iter().enumerate()).fold(Complex::ZERO, |sum, (c, a)| sum + m.get(r, c) * *a))
        .collect()
}

fn assert_vectors_equal(a: &[Complex], b: &[Complex], what: &str) {
    assert_eq!(a.len(), b.len());
    let equal = a.iter().zip(b).all(|(a, b)| a.approx_eq(*b));
    assert!(equal, "{what}: {a:?} is not {b:?}");
}

#[test]
fn rows_act_as_their_matrices() {
    for n in 1..=3 {
        let state = generic_state(n);
        for row in all_rows(n) {
            let expected = times(&row_matrix(n, &row), &state);
            let mut moved = state.clone();
            moved.apply_row(&row);
            assert_vectors_equal(moved.amplitudes(), &expected, &format!("{row:?}"));
            let value = (state.amplitudes().iter())
                .zip(&expected)
                .fold(Complex::ZERO, |sum, (a, b)| sum + a.conj() * *b);
            assert!(state.expectation(&row).approx_eq(value), "{row:?}");
        }
    }
}

#[test]
fn gates_act_as_their_matrices() {
    let n = 4;
    let state = generic_state(n);
    for q in 0..n {
        for u in one_qubit_cliffords() {
            let mut moved = state.clone();
            moved.apply(q, &u);
            let expected = times(&Matrix::one_qubit(n, q, &u), &state);
            assert_vectors_equal(moved.amplitudes(), &expected, &format!("{u:?} on {q}"));
        }
        for b in (0..n).filter(|&b| b != q) {
            let mut moved = state.clone();
            moved.cz(q, b);
            let expected = times(&Matrix::cz(n, q, b), &state);
            assert_vectors_equal(moved.amplitudes(), &expected, &format!("CZ {q} {b}"));
        }
    }
}

#[test]
fn rows_on_one_qubit_act_as_their_letters() {
    for q in 0..4 {
        for letter in 0..4 {
            let row = Row::new(0, (letter >> 1) << q, (letter & 1) << q);
            let (mut by_row, mut by_gate) = (generic_state(4), generic_state(4));
            by_row.apply_row(&row);
            by_gate.apply(q, &letter_matrix(letter as u8));
            let what = format!("{row:?}");
            assert_vectors_equal(by_row.amplitudes(), by_gate.amplitudes(), &what);
        }
    }
}

/// The rules of CZ on qubits 0 and 1, a spectator on qubit 2.
const CZ_RULES: [(&str, &str); 9] = [
    ("XII", "XZI"),
    ("IXI", "ZXI"),
    ("ZII", "ZII"),
    ("IZI", "IZI"),
    ("YII", "YZI"),
    ("IYI", "ZYI"),
    ("XXI", "YYI"),
    ("XYI", "-YXI"),
    ("IIX", "IIX"),
];

#[test]
fn cz_conjugates_dense_matrices() {
    let cz = Matrix::cz(3, 0, 1);
    for (before, after) in CZ_RULES {
        let image = cz.conjugate(&row_matrix(3, &Row::parse(before)));
        let expected = row_matrix(3, &Row::parse(after));
        assert!(image.approx_eq(&expected), "{before} to {after}");
    }
    let x = row_matrix(3, &Row::parse("XII"));
    assert!(!cz.conjugate(&x).approx_eq(&x));
}

#[test]
fn cz_moves_the_rows_of_states() {
    for (before, after) in CZ_RULES {
        let (before, after) = (Row::parse(before), Row::parse(after));
        // CZ (before |psi>) is after (CZ |psi>) for every state.
        let (mut left, mut right) = (generic_state(3), generic_state(3));
        left.apply_row(&before);
        left.cz(0, 1);
        right.cz(0, 1);
        right.apply_row(&after);
        let what = format!("{before:?} to {after:?}");
        assert_vectors_equal(left.amplitudes(), right.amplitudes(), &what);
        // A state of the old row becomes a state of the new one.
        let mut state = generic_state(3).project(&before, 0).unwrap();
        state.cz(0, 1);
        assert!(state.is_stabilized(&after), "{what}");
        let opposite = Row::new(2 - after.phase, after.z, after.x);
        assert!(!state.is_stabilized(&opposite), "{what}");
    }
}

#[test]
fn cliffords_move_the_rows_of_states_to_their_images() {
    for u in one_qubit_cliffords() {
        let (x_image, z_image) = images(&u);
        let at_qubit_1 = |(phase, letter): (u8, u8)| {
            let letter = u64::from(letter);
            Row::new(phase, (letter >> 1) << 1, (letter & 1) << 1)
        };
        for (row, image) in [("IX", x_image), ("IZ", z_image)] {
            let mut state = generic_state(2).project(&Row::parse(row), 0).unwrap();
            state.apply(1, &u);
            assert!(state.is_stabilized(&at_qubit_1(image)));
            assert!(!state.is_stabilized(&at_qubit_1((2 - image.0, image.1))));
        }
        assert!(find(x_image, z_image).approx_eq_up_to_phase(&u));
    }
}
