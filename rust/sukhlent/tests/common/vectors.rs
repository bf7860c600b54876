//! State vectors of records and of generator lists.

use super::images;
use simulator::{find, Complex, Matrix2, Row, State};
use sukhlent::{GeneratorList, Record};

/// The matrix of a code.
pub fn matrix(code: u8) -> Matrix2 {
    let (x, z) = images(code);
    find(x, z)
}

/// The generators of a list.
pub fn signed_rows(list: &GeneratorList) -> Vec<Row> {
    (0..list.n())
        .map(|j| Row::new(2 * list.signs[j], list.z[j], list.x[j]))
        .collect()
}

/// Every generator has expectation +1.
pub fn assert_stabilized(state: &State, list: &GeneratorList) {
    for row in signed_rows(list) {
        let value = state.expectation(&row);
        assert!(value.approx_eq(Complex::ONE), "{row:?} has {value:?}");
    }
}

/// The graph state of a record's graph with the record's Cliffords applied.
pub fn state_of(record: &Record) -> State {
    let n = record.n();
    let mut state = State::zero(n);
    (0..n).for_each(|q| state.apply(q, &Matrix2::H));
    for a in 0..n {
        let above = (a + 1..n).filter(|b| record.neighbours[a] >> b & 1 == 1);
        above.for_each(|b| state.cz(a, b));
    }
    for (q, &code) in record.codes.iter().enumerate() {
        state.apply(q, &matrix(code));
    }
    state
}
