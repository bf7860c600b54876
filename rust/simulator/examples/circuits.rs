//! Circuits on three qubits and what state vectors say of them, as text that other tests read
//! (python/tests/simulated.txt): the steps, one a line, with the probability of each measured
//! outcome, and then the signs of all 64 Paulis, 0 where the expectation is 0.

use random::Draws;
use simulator::{Matrix2, Row, State};
use std::fmt::Write;

const N: usize = 3;
const LETTERS: [&str; 4] = ["I", "X", "Y", "Z"];

/// The gates by name, from H and S alone.
fn gates() -> Vec<(&'static str, Matrix2)> {
    let (h, s) = (Matrix2::H, Matrix2::S);
    let back = s * s * s;
    vec![
        ("H", h),
        ("S", s),
        ("S_DAG", back),
        ("X", h * s * s * h),
        ("Z", s * s),
        ("Y", s * h * s * s * h * back),
        ("SQRT_X", h * s * h),
        ("SQRT_X_DAG", h * back * h),
        ("SQRT_Y", s * h * s * h * back),
        ("SQRT_Y_DAG", s * h * back * h * back),
    ]
}

/// Numbers below a bound, of the draws of a seed.
struct Source(Draws);

impl Source {
    fn below(&mut self, n: usize) -> usize {
        let draw = self.0.next().expect("draws do not end");
        (draw >> 20) as usize % n
    }
}

fn main() {
    print!("{}", circuits());
}

/// The whole text.
pub fn circuits() -> String {
    let mut source = Source(Draws::new(20_261_116));
    let mut text = String::new();
    (0..48).for_each(|_| circuit(&mut source, &mut text));
    text
}

/// One circuit: gates and CZ, and a measurement of qubit 0 at the end.
fn circuit(source: &mut Source, text: &mut String) {
    let gates = gates();
    let mut state = State::zero(N);
    writeln!(text, "circuit").unwrap();
    for _ in 0..20 {
        let (a, b) = (source.below(N), source.below(N));
        if a == b || source.below(2) == 0 {
            let (name, matrix) = gates[source.below(gates.len())];
            state.apply(a, &matrix);
            writeln!(text, "gate {name} {a}").unwrap();
        } else {
            state.cz(a, b);
            writeln!(text, "cz {a} {b}").unwrap();
        }
    }
    let (letter, outcome) = (1 + source.below(3), source.below(2) as u8);
    let row = Row::parse(&format!("{}II", LETTERS[letter]));
    let probability = state.probability(&row, outcome);
    let measured = state.project(&row, outcome).unwrap_or(state);
    writeln!(
        text,
        "measure {} 0 {outcome} {probability:.1}",
        LETTERS[letter]
    )
    .unwrap();
    writeln!(text, "signs {}", signs(&measured)).unwrap();
}

/// The signs of all Paulis, in the order of their strings: III, IIX, IIY, IIZ, IXI and so on.
fn signs(state: &State) -> String {
    let mut found = String::new();
    for number in 0..1 << (2 * N) {
        let places = (0..N).map(|q| LETTERS[number >> (2 * (N - 1 - q)) & 3]);
        let value = state
            .expectation(&Row::parse(&places.collect::<String>()))
            .re;
        found.push(match value.round() as i8 {
            1 => '+',
            -1 => '-',
            _ => '0',
        });
    }
    found
}
