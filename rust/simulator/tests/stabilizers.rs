//! States known by their stabilizers, and measurements on them.

use simulator::{Complex, Matrix2, Row, State};

fn rows(texts: &[&str]) -> Vec<Row> {
    texts.iter().map(|text| Row::parse(text)).collect()
}

fn close(a: f64, b: f64) -> bool {
    (a - b).abs() < 1e-9
}

/// CNOT written with H and CZ.
fn cnot(state: &mut State, control: usize, target: usize) {
    state.apply(target, &Matrix2::H);
    state.cz(control, target);
    state.apply(target, &Matrix2::H);
}

/// The state (|0..0> + |1..1>)/sqrt(2).
fn ghz(n: usize) -> State {
    let mut state = State::zero(n);
    state.apply(0, &Matrix2::H);
    (1..n).for_each(|q| cnot(&mut state, q - 1, q));
    state
}

#[test]
fn bell_state_by_its_stabilizers() {
    let bell = ghz(2);
    let r = std::f64::consts::FRAC_1_SQRT_2;
    for (y, re) in [r, 0.0, 0.0, r].into_iter().enumerate() {
        assert!(bell.amplitudes()[y].approx_eq(Complex::new(re, 0.0)));
    }
    for row in rows(&["XX", "ZZ", "-YY", "II"]) {
        assert!(bell.is_stabilized(&row), "{row:?}");
    }
    for row in rows(&["-XX", "-ZZ", "YY", "-II", "XI", "IZ", "XZ"]) {
        assert!(!bell.is_stabilized(&row), "{row:?}");
    }
    let found = State::stabilized_by(2, &rows(&["XX", "ZZ"])).unwrap();
    assert!(close(found.overlap(&bell), 1.0));
}

#[test]
fn the_four_bell_states_are_orthogonal() {
    let signs = [["XX", "ZZ"], ["-XX", "ZZ"], ["XX", "-ZZ"], ["-XX", "-ZZ"]];
    let states = signs.map(|pair| State::stabilized_by(2, &rows(&pair)).unwrap());
    for (a, first) in states.iter().enumerate() {
        for (b, second) in states.iter().enumerate() {
            let expected = if a == b { 1.0 } else { 0.0 };
            assert!(close(first.overlap(second), expected), "{a} {b}");
        }
    }
}

#[test]
fn ghz_states_by_their_stabilizers() {
    for n in 2..=10 {
        let mut generators = vec![Row::new(0, 0, (1 << n) - 1)];
        generators.extend((1..n).map(|q| Row::new(0, 0b11 << (q - 1), 0)));
        let found = State::stabilized_by(n, &generators).unwrap();
        assert!(close(found.overlap(&ghz(n)), 1.0), "{n} qubits");
        generators[0].phase = 2;
        let opposite = State::stabilized_by(n, &generators).unwrap();
        assert!(close(opposite.overlap(&ghz(n)), 0.0), "{n} qubits");
    }
    assert!(ghz(3).is_stabilized(&Row::parse("-XYY")));
    assert!(!ghz(3).is_stabilized(&Row::parse("XYY")));
}

#[test]
fn graph_state_of_a_path() {
    let mut path = State::zero(4);
    (0..4).for_each(|q| path.apply(q, &Matrix2::H));
    (1..4).for_each(|q| path.cz(q - 1, q));
    let generators = rows(&["XZII", "ZXZI", "IZXZ", "IIZX"]);
    assert!(generators.iter().all(|row| path.is_stabilized(row)));
    let found = State::stabilized_by(4, &generators).unwrap();
    assert!(close(found.overlap(&path), 1.0));
    assert!(!path.is_stabilized(&Row::parse("XIII")));
}

#[test]
fn expectation_values() {
    let bell = ghz(2);
    for (text, expected) in [
        ("XX", 1.0),
        ("ZZ", 1.0),
        ("YY", -1.0),
        ("-YY", 1.0),
        ("XI", 0.0),
        ("IZ", 0.0),
        ("XY", 0.0),
    ] {
        let value = bell.expectation(&Row::parse(text));
        assert!(value.approx_eq(Complex::new(expected, 0.0)), "{text}");
    }
    let i_times_xx = Row::new(1, 0, 0b11);
    assert!(bell.expectation(&i_times_xx).approx_eq(Complex::I));
    let mut plus_i = State::zero(1);
    plus_i.apply(0, &Matrix2::H);
    plus_i.apply(0, &Matrix2::S);
    assert!(plus_i.expectation(&Row::parse("Y")).approx_eq(Complex::ONE));
    assert!(plus_i
        .expectation(&Row::parse("X"))
        .approx_eq(Complex::ZERO));
}

#[test]
fn measuring_a_bell_pair() {
    let bell = ghz(2);
    let (first, second) = (Row::parse("ZI"), Row::parse("IZ"));
    for outcome in 0..2 {
        assert!(close(bell.probability(&first, outcome), 0.5));
        assert!(close(bell.probability(&second, outcome), 0.5));
        let after = bell.project(&first, outcome).unwrap();
        assert!(close(after.probability(&second, outcome), 1.0));
        assert!(close(after.probability(&second, 1 - outcome), 0.0));
        assert!(after.project(&second, 1 - outcome).is_none());
        let expected = State::basis(2, if outcome == 0 { 0 } else { 3 });
        assert!(close(after.overlap(&expected), 1.0));
        assert!(close(after.probability(&Row::parse("XX"), 0), 0.5));
    }
    assert!(close(bell.probability(&Row::parse("YY"), 1), 1.0));
    assert!(bell.project(&Row::parse("YY"), 0).is_none());
}

#[test]
fn projection_is_normalised_and_repeatable() {
    let state = ghz(3);
    for text in ["XII", "-IYI", "ZXI", "YYZ"] {
        let row = Row::parse(text);
        for outcome in 0..2 {
            let Some(after) = state.project(&row, outcome) else {
                panic!("{text} is random on this state");
            };
            assert!(close(after.overlap(&after), 1.0), "{text}");
            assert!(close(after.probability(&row, outcome), 1.0), "{text}");
            assert!(close(
                after.overlap(&state),
                state.probability(&row, outcome)
            ));
        }
    }
}

#[test]
fn contradicting_rows_have_no_state() {
    for texts in [
        vec!["XX", "-XX"],
        vec!["XI", "ZI"],
        vec!["ZI", "XI"],
        vec!["XI", "YI", "XI"],
        vec!["XX", "ZZ", "YY"],
        vec!["-II"],
    ] {
        let found = State::stabilized_by(2, &rows(&texts));
        assert!(found.is_none(), "{texts:?}");
    }
    assert!(State::stabilized_by(2, &rows(&["XX", "ZZ", "-YY"])).is_some());
}

#[test]
fn fewer_rows_than_qubits_leave_freedom() {
    let free = State::stabilized_by(3, &[]).unwrap();
    assert!(close(free.overlap(&free), 1.0));
    let generators = rows(&["-ZZI", "XXX"]);
    let found = State::stabilized_by(3, &generators).unwrap();
    assert!(generators.iter().all(|row| found.is_stabilized(row)));
    assert!(close(found.overlap(&found), 1.0));
}

#[test]
fn the_last_basis_state_is_found() {
    let generators: Vec<Row> = (0..10).map(|q| Row::new(2, 1 << q, 0)).collect();
    let found = State::stabilized_by(10, &generators).unwrap();
    assert!(close(found.overlap(&State::basis(10, 1023)), 1.0));
}
