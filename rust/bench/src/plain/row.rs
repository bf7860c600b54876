//! Rows.

/// The operator i^phase X^x Z^z; Y is i X Z.
#[derive(Clone, Copy, Default)]
pub struct Row {
    pub z: u64,
    pub x: u64,
    phase: u32,
}

impl Row {
    /// The letters of two words with a sign.
    pub fn new(minus: bool, z: u64, x: u64) -> Row {
        let phase = (2 * u32::from(minus) + (z & x).count_ones()) & 3;
        Row { z, x, phase }
    }

    /// Multiplies another row into this one: moving its X past this Z gives signs.
    pub fn multiply(&mut self, other: Row) {
        let signs = (self.z & other.x).count_ones();
        self.phase = (self.phase + other.phase + 2 * signs) & 3;
        self.z ^= other.z;
        self.x ^= other.x;
    }

    /// Applies a Hadamard at each qubit of a word: X Z becomes Z X, which is -X Z.
    pub fn hadamards(&mut self, qubits: u64) {
        let signs = (self.z & self.x & qubits).count_ones();
        self.phase = (self.phase + 2 * signs) & 3;
        let changed = (self.z ^ self.x) & qubits;
        self.z ^= changed;
        self.x ^= changed;
    }

    /// The power of i that the row gives the basis state of a word.
    pub fn turns(&self, y: u64) -> u32 {
        (self.phase + 2 * (self.z & y).count_ones()) & 3
    }

    /// The power of i in front of the letters, 0 to 3.
    pub fn phase_of_letters(&self) -> u8 {
        (self.phase.wrapping_sub((self.z & self.x).count_ones()) & 3) as u8
    }

    /// Whether the letters have the sign minus.
    pub fn is_minus(&self) -> bool {
        self.phase_of_letters() == 2
    }
}
