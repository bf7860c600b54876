//! A graph and one code per vertex, after Anders and Briegel (Physical Review A 73, 022334, 2006). A gate is one
//! composition, CZ and measurements complement until the codes let them act on the graph. It checks nothing and reduces
//! nothing, so that one state has many records.

use super::{Answer, Session};
use crate::codes::{image, images};
use crate::operation::Operation;
use crate::seeded::pauli::{X, Y, Z};
use std::sync::OnceLock;
use sukhlent::{expand, reduce, Record};
use tableau::Measured;

/// By the numbers of the measured Paulis.
const PAULIS: [u8; 3] = [X, Y, Z];

/// What is looked up for a code.
struct Table {
    /// The code of one and then another.
    then: [[u8; 24]; 24],
    /// The letter that a code sends to X, Y and Z, as the number of a Pauli, and whether with a minus.
    back: [[(u8, bool); 3]; 24],
}

fn table() -> &'static Table {
    static TABLE: OnceLock<Table> = OnceLock::new();
    TABLE.get_or_init(|| Table {
        then: std::array::from_fn(|a| std::array::from_fn(|b| composed(a as u8, b as u8))),
        back: std::array::from_fn(|code| PAULIS.map(|letter| source(code as u8, letter))),
    })
}

fn composed(a: u8, b: u8) -> u8 {
    let both = |(phase, letter)| {
        let (more, letter) = image(b, letter);
        ((phase + more) % 4, letter)
    };
    let (x, z) = images(a);
    let same = |&code: &u8| images(code) == (both(x), both(z));
    (0..24).find(same).expect("the codes form a group")
}

fn source(code: u8, letter: u8) -> (u8, bool) {
    let sent = |&pauli: &u8| image(code, PAULIS[usize::from(pauli) - 1]).1 == letter;
    let pauli = (1..=3).find(sent).expect("a code permutes the letters");
    (pauli, image(code, PAULIS[usize::from(pauli) - 1]).0 == 2)
}

pub struct Graph {
    n: usize,
    neighbours: [u64; 64],
    codes: [u8; 64],
    table: &'static Table,
}

/// The set bits of a word, rising.
fn bits(mut word: u64) -> impl Iterator<Item = usize> {
    std::iter::from_fn(move || {
        let q = word.trailing_zeros() as usize;
        word &= word.checked_sub(1)?;
        Some(q)
    })
}

impl Graph {
    /// A code before the one that is held.
    fn before(&mut self, q: usize, code: u8) {
        self.codes[q] = self.table.then[usize::from(code)][usize::from(self.codes[q])];
    }

    fn complement(&mut self, a: usize) {
        let around = self.neighbours[a];
        for i in bits(around) {
            self.neighbours[i] ^= around ^ 1 << i;
            self.before(i, 6);
        }
        self.before(a, 13);
    }

    /// The letter, and its sign, that the code at q sends to a Pauli.
    fn letter(&self, q: usize, pauli: u8) -> (u8, bool) {
        self.table.back[usize::from(self.codes[q])][usize::from(pauli) - 1]
    }

    /// Z at each vertex of a word.
    fn turn(&mut self, word: u64) {
        for q in bits(word) {
            self.codes[q] ^= 2;
        }
    }

    /// Where Z at a or b comes from Y it is made X or Z, and where one comes from X and the two are neighbours, Z.
    fn prepare(&mut self, a: usize, b: usize) {
        for q in [a, b, a, b] {
            if self.letter(q, 3).0 == 2 {
                self.complement(q);
            }
        }
        let letters = [a, b].map(|q| self.letter(q, 3).0);
        if letters.contains(&1) && self.neighbours[a] >> b & 1 == 1 {
            for q in [a, b, a] {
                self.complement(q);
            }
        }
    }

    /// Z at a vertex is Z there, or by the vertex's generator Z at all its neighbours.
    fn cz(&mut self, a: usize, b: usize) {
        self.prepare(a, b);
        let [at_a, at_b] = [a, b].map(|q| match self.letter(q, 3) {
            (3, minus) => (1 << q, minus),
            (_, minus) => (self.neighbours[q], minus),
        });
        let turned = |(word, _): (u64, bool), (_, minus): (u64, bool)| if minus { word } else { 0 };
        let signs = at_a.0 & at_b.0 ^ turned(at_b, at_a) ^ turned(at_a, at_b);
        for q in bits(at_a.0 | at_b.0) {
            let near = |(word, _): (u64, bool), (other, _): (u64, bool)| {
                if word >> q & 1 == 1 {
                    other
                } else {
                    0
                }
            };
            self.neighbours[q] ^= near(at_a, at_b) ^ near(at_b, at_a);
            self.neighbours[q] &= !(1 << q);
        }
        self.turn(signs);
    }

    fn measure(&mut self, pauli: u8, q: usize, bit: u8) -> Answer {
        let determined = self.letter(q, pauli).0 == 1 && self.neighbours[q] == 0;
        if !determined {
            self.choose(pauli, q, bit == 1);
        } else if self.letter(q, pauli).1 != (bit == 1) {
            return Answer::Refused;
        }
        Answer::Measured(Measured {
            outcome: bit,
            determined,
        })
    }

    /// Complements until the Pauli comes from Z; then the vertex is isolated.
    fn choose(&mut self, pauli: u8, q: usize, bit: bool) {
        if self.letter(q, pauli).0 == 1 {
            self.complement(self.neighbours[q].trailing_zeros() as usize);
        }
        if self.letter(q, pauli).0 == 2 {
            self.complement(q);
        }
        let minus = bit != self.letter(q, pauli).1;
        let around = std::mem::take(&mut self.neighbours[q]);
        if minus {
            self.turn(around);
        }
        for i in bits(around) {
            self.neighbours[i] &= !(1 << q);
        }
        self.before(q, if minus { 10 } else { 8 });
    }
}

impl Session for Graph {
    fn start(n: usize) -> Graph {
        Graph {
            n,
            neighbours: [0; 64],
            codes: [8; 64],
            table: table(),
        }
    }

    fn step(&mut self, operation: Operation) -> Answer {
        match operation {
            Operation::Gate(q, code) => {
                let held = &mut self.codes[q as usize];
                *held = self.table.then[usize::from(*held)][usize::from(code)];
            }
            Operation::Cz(a, b) => self.cz(a as usize, b as usize),
            Operation::Measure(pauli, q, bit) => return self.measure(pauli, q as usize, bit),
            _ => panic!("no step of these jobs: {operation:?}"),
        }
        Answer::Done
    }

    fn record(&self) -> Record {
        let held = Record {
            neighbours: self.neighbours[..self.n].to_vec(),
            codes: self.codes[..self.n].to_vec(),
            used: 0,
        };
        let list = expand(&held).expect("a record");
        reduce(&list).expect("its generators")
    }
}
