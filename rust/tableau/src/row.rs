//! Rows of a tableau.

/// The operator i^phase X^x Z^z, all X left of all Z. The letter Y is i X Z.
#[derive(Clone, Copy, Debug, PartialEq, Eq)]
pub struct Row {
    /// The exponent of i, 0 to 3.
    phase: u32,
    /// The qubits with letter X or Y.
    pub x: u64,
    /// The qubits with letter Z or Y.
    pub z: u64,
}

impl Row {
    /// The identity.
    pub const IDENTITY: Row = Row {
        phase: 0,
        x: 0,
        z: 0,
    };

    /// A Pauli (1 X, 2 Y, 3 Z) at a qubit, with sign plus.
    pub fn single(pauli: u8, q: usize) -> Row {
        let (phase, x, z) = match pauli {
            1 => (0, 1, 0),
            2 => (1, 1, 1),
            3 => (0, 0, 1),
            _ => panic!("no Pauli has the number {pauli}"),
        };
        Row {
            phase,
            x: x << q,
            z: z << q,
        }
    }

    /// The row with these letters and sign plus: at each qubit the bits (z, x) are 00 for I, 01 for X,
    /// 10 for Z, 11 for Y.
    pub fn letters(z: u64, x: u64) -> Row {
        Row {
            phase: (x & z).count_ones() & 3,
            x,
            z,
        }
    }

    /// The row with its sign turned where the bit is 1.
    pub fn with_sign(self, bit: u8) -> Row {
        Row {
            phase: (self.phase + 2 * u32::from(bit)) & 3,
            ..self
        }
    }

    /// 0 for plus, 1 for minus. Panics where the letters have another factor.
    pub fn sign(&self) -> u8 {
        let letters_y = (self.x & self.z).count_ones();
        match self.phase.wrapping_sub(letters_y) & 3 {
            0 => 0,
            2 => 1,
            _ => panic!("no sign: {self:?}"),
        }
    }

    /// Whether two rows anticommute.
    pub fn clashes(&self, other: &Row) -> bool {
        ((self.x & other.z) ^ (self.z & other.x)).count_ones() & 1 == 1
    }

    /// Multiplies by another row from the right: its X go past the Z of this row.
    pub fn multiply(&mut self, other: &Row) {
        let past = (self.z & other.x).count_ones();
        self.phase = (self.phase + other.phase + 2 * past) & 3;
        self.x ^= other.x;
        self.z ^= other.z;
    }

    /// Puts an image in the place of what stands at a qubit. The images are those of I, X, Z and
    /// XZ, as rows at qubit 0.
    pub fn substitute(&mut self, q: usize, images: &[Row; 4]) {
        let image = images[((self.x >> q & 1) | (self.z >> q & 1) << 1) as usize];
        self.phase = (self.phase + image.phase) & 3;
        self.x = self.x & !(1 << q) | image.x << q;
        self.z = self.z & !(1 << q) | image.z << q;
    }

    /// CZ on two qubits: X at one brings Z at the other. Where both have X, a Z goes past an X.
    pub fn cz(&mut self, a: usize, b: usize) {
        let (at_a, at_b) = (self.x >> a & 1, self.x >> b & 1);
        self.phase = (self.phase + 2 * (at_a & at_b) as u32) & 3;
        self.z ^= at_b << a | at_a << b;
    }
}
