//! Times of gate, CZ and measurement at several mean degrees of the graph, on 64 qubits, beside the plain tableau.

use bench::calls::in_place::{at_degree, check_at_degree, KINDS};

/// The mean degrees.
const DEGREES: [f64; 6] = [0.0, 1.5, 4.0, 8.0, 16.0, 32.0];

/// The columns: the check alone, then the kinds of calls in their order.
const NAMES: [&str; 5] = [
    "the check alone",
    "gate",
    "CZ",
    "measure, chosen",
    "measure, determined",
];

/// The rounds over all degrees, of which the least times are shown: the machine's clock changes between the rows of one.
const ROUNDS: usize = 9;

/// The times of a degree: the check alone, then each kind of call by the engine and by the tableau.
type Row = [f64; 2 * KINDS.len() + 1];

fn main() {
    println!("Nanoseconds of a call by the engine, by the tableau, and the ratio:\n");
    println!("| degree | {} |", NAMES.join(" | "));
    println!("|---|{}", "---|".repeat(NAMES.len()));
    let mut rows = [[f64::MAX; 2 * KINDS.len() + 1]; DEGREES.len()];
    for _ in 0..ROUNDS {
        for (row, degree) in rows.iter_mut().zip(DEGREES) {
            let found = times(degree);
            row.iter_mut().zip(found).for_each(|(t, f)| *t = t.min(f));
        }
    }
    for (row, degree) in rows.iter().zip(DEGREES) {
        let calls = row[1..].chunks(2).map(|pair| {
            let [engine, plain] = [pair[0], pair[1]];
            format!(" {engine:.0}, {plain:.0}, {:.2} |", engine / plain)
        });
        println!("| {degree} | {:.0} |{}", row[0], calls.collect::<String>());
    }
    let spans = (0..NAMES.len()).map(|column| {
        let at = if column == 0 { 0 } else { 2 * column - 1 };
        let engine = rows.iter().map(|row| row[at]);
        let (best, worst) = (
            engine.clone().fold(f64::MAX, f64::min),
            engine.fold(0.0, f64::max),
        );
        format!(" {:.2} |", worst / best)
    });
    println!("| worst over best |{}", spans.collect::<String>());
}

/// One round at a degree.
fn times(degree: f64) -> Row {
    let mut row = [0.0; 2 * KINDS.len() + 1];
    row[0] = check_at_degree(degree);
    for (kind, pair) in KINDS.into_iter().zip(row[1..].chunks_mut(2)) {
        pair.copy_from_slice(&at_degree(kind, degree));
    }
    row
}
