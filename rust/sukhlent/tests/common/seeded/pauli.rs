//! Pauli operators, letter by letter.

/// The letter I; letters are numbered 2z + x.
pub const I: u8 = 0;
/// The letter X.
pub const X: u8 = 1;
/// The letter Z.
pub const Z: u8 = 2;
/// The letter Y.
pub const Y: u8 = 3;

/// A power of i times one letter per qubit.
#[derive(Clone, Debug, PartialEq, Eq, Hash)]
pub struct Pauli {
    /// The exponent of i, 0 to 3; 2 is the sign minus.
    pub phase: u8,
    /// The letters, qubit 0 first.
    pub letters: Vec<u8>,
}

/// The product of two letters: XY = iZ, YZ = iX, ZX = iY; reversed order gives -i.
pub fn letter_product(a: u8, b: u8) -> (u8, u8) {
    match (a, b) {
        (I, b) => (0, b),
        (a, I) => (0, a),
        (a, b) if a == b => (0, I),
        (X, Y) => (1, Z),
        (Y, Z) => (1, X),
        (Z, X) => (1, Y),
        (Y, X) => (3, Z),
        (Z, Y) => (3, X),
        (X, Z) => (3, Y),
        _ => panic!("not letters: {a} and {b}"),
    }
}

impl Pauli {
    /// The identity on n qubits.
    pub fn identity(n: usize) -> Pauli {
        Pauli {
            phase: 0,
            letters: vec![I; n],
        }
    }

    /// The operator written as an optional sign and a letter per qubit, qubit 0 first.
    pub fn parse(text: &str) -> Pauli {
        let (phase, letters) = match text.strip_prefix('-') {
            Some(rest) => (2, rest),
            None => (0, text.strip_prefix('+').unwrap_or(text)),
        };
        let number = |c| "IXZY".find(c).expect("a letter I, X, Z or Y") as u8;
        Pauli {
            phase,
            letters: letters.chars().map(number).collect(),
        }
    }

    /// The operator with the letter `letter` at qubit q.
    pub fn single(n: usize, q: usize, letter: u8) -> Pauli {
        let mut row = Pauli::identity(n);
        row.letters[q] = letter;
        row
    }

    /// The product of two operators.
    pub fn times(&self, other: &Pauli) -> Pauli {
        assert_eq!(self.letters.len(), other.letters.len());
        let mut phase = self.phase + other.phase;
        let mut letters = Vec::with_capacity(self.letters.len());
        for (&a, &b) in self.letters.iter().zip(&other.letters) {
            let (turn, letter) = letter_product(a, b);
            phase = (phase + turn) % 4;
            letters.push(letter);
        }
        phase %= 4;
        Pauli { phase, letters }
    }

    /// Whether the places where both act and differ are even in number.
    pub fn commutes(&self, other: &Pauli) -> bool {
        let both = self.letters.iter().zip(&other.letters);
        both.filter(|&(&a, &b)| a != I && b != I && a != b).count() % 2 == 0
    }
}
