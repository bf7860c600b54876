//! Pauli rows.

/// The operator `i^phase` times one letter per qubit.
///
/// At qubit `q` the pair (bit `q` of `z`, bit `q` of `x`) is 00 for I, 01 for
/// X, 10 for Z and 11 for the letter Y itself. A signed row has phase 0 (plus)
/// or 2 (minus).
#[derive(Clone, Copy, Debug, PartialEq, Eq, Hash)]
pub struct Row {
    /// The exponent of `i`, 0 to 3.
    pub phase: u8,
    /// The qubits with letter Z or Y.
    pub z: u64,
    /// The qubits with letter X or Y.
    pub x: u64,
}

impl Row {
    /// The row with the given phase and bits.
    pub const fn new(phase: u8, z: u64, x: u64) -> Row {
        Row { phase, z, x }
    }

    /// The signed row written as an optional `+` or `-` and a letter per qubit.
    ///
    /// The first letter belongs to qubit 0. Panics on any other character and
    /// on more than 64 letters.
    pub fn parse(text: &str) -> Row {
        let (phase, letters) = match text.strip_prefix('-') {
            Some(rest) => (2, rest),
            None => (0, text.strip_prefix('+').unwrap_or(text)),
        };
        let mut row = Row::new(phase, 0, 0);
        for (q, letter) in letters.chars().enumerate() {
            assert!(q < 64, "a row has at most 64 letters: {text:?}");
            let (z, x) = match letter {
                'I' => (0, 0),
                'X' => (0, 1),
                'Z' => (1, 0),
                'Y' => (1, 1),
                _ => panic!("not a Pauli letter: {letter:?} in {text:?}"),
            };
            row.z |= z << q;
            row.x |= x << q;
        }
        row
    }

    /// The letter at qubit `q`: 0 I, 1 X, 2 Z, 3 Y. Panics if `q` is 64 or more.
    pub fn letter(&self, q: usize) -> u8 {
        assert!(q < 64, "qubit {q} out of range: a row has 64 qubits");
        (2 * (self.z >> q & 1) + (self.x >> q & 1)) as u8
    }

    /// Whether the phase is 0 or 2.
    pub fn is_signed(&self) -> bool {
        self.phase == 0 || self.phase == 2
    }

    /// Panics unless the phase is below 4 and all letters lie on `n` qubits.
    pub(crate) fn check(&self, n: usize) {
        assert!(self.phase < 4, "phase out of range 0..4: {self:?}");
        assert!(
            (self.z | self.x) >> n == 0,
            "row acts outside of {n} qubits: {self:?}"
        );
    }
}

#[cfg(test)]
mod tests {
    use super::*;

    #[test]
    fn parse_reads_sign_and_letters_from_qubit_zero() {
        assert_eq!(Row::parse("XIZY"), Row::new(0, 0b1100, 0b1001));
        assert_eq!(Row::parse("+ZX"), Row::new(0, 0b01, 0b10));
        assert_eq!(Row::parse("-YI"), Row::new(2, 0b01, 0b01));
    }

    #[test]
    fn letters_are_coded_as_two_z_plus_x() {
        let row = Row::parse("IXZY");
        let letters: Vec<u8> = (0..5).map(|q| row.letter(q)).collect();
        assert_eq!(letters, [0, 1, 2, 3, 0]);
    }

    #[test]
    fn signed_rows_have_an_even_phase() {
        let signed: Vec<bool> = (0..5).map(|k| Row::new(k, 0, 1).is_signed()).collect();
        assert_eq!(signed, [true, false, true, false, false]);
    }

    #[test]
    #[should_panic(expected = "not a Pauli letter")]
    fn parse_refuses_other_letters() {
        Row::parse("XQ");
    }

    #[test]
    #[should_panic(expected = "outside of 2 qubits")]
    fn check_refuses_letters_beyond_the_last_qubit() {
        Row::new(0, 0b100, 0).check(2);
    }

    #[test]
    #[should_panic(expected = "phase out of range")]
    fn check_refuses_a_phase_of_four() {
        Row::new(4, 0, 1).check(2);
    }
}
