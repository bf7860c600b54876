//! A plain stabilizer tableau after Aaronson and Gottesman, on 1 to 64 qubits.
//!
//! Beside each generator stands a row that anticommutes with this generator alone (its
//! destabilizer). With these the sign of a determined outcome is found without elimination.

mod codes;
mod row;

pub use row::Row;

/// The generators of a stabilizer state and their destabilizers.
#[derive(Clone, Debug)]
pub struct Tableau {
    stabilizers: Vec<Row>,
    destabilizers: Vec<Row>,
}

/// The answer of a measurement.
#[derive(Clone, Copy, Debug, PartialEq, Eq)]
pub struct Measured {
    /// 0 for plus, 1 for minus.
    pub outcome: u8,
    /// Whether the outcome was certain.
    pub determined: bool,
}

impl Tableau {
    /// The state in which every qubit is 0. Panics unless n is 1 to 64.
    pub fn zero(n: usize) -> Tableau {
        assert!((1..=64).contains(&n), "{n} qubits");
        Tableau {
            stabilizers: (0..n).map(|q| Row::single(3, q)).collect(),
            destabilizers: (0..n).map(|q| Row::single(1, q)).collect(),
        }
    }

    /// The number of qubits.
    pub fn n(&self) -> usize {
        self.stabilizers.len()
    }

    /// The generators.
    pub fn generators(&self) -> &[Row] {
        &self.stabilizers
    }

    /// Applies the Clifford with this code at a qubit. Panics on other numbers.
    pub fn gate(&mut self, q: usize, code: u8) {
        assert!(q < self.n(), "qubit {q}");
        let images = codes::images(code);
        for row in self.rows() {
            row.substitute(q, &images);
        }
    }

    /// Applies CZ to two qubits. Panics on other numbers, and if they are the same.
    pub fn cz(&mut self, a: usize, b: usize) {
        assert!(a < self.n() && b < self.n() && a != b, "qubits {a}, {b}");
        for row in self.rows() {
            row.cz(a, b);
        }
    }

    /// Measures a Pauli (1 X, 2 Y, 3 Z) at a qubit; the bit is the outcome. None, and the state as
    /// it was, where the other outcome is certain. Panics on other numbers.
    pub fn measure(&mut self, pauli: u8, q: usize, bit: u8) -> Option<Measured> {
        assert!((1..=3).contains(&pauli) && bit < 2, "{pauli}, bit {bit}");
        assert!(q < self.n(), "qubit {q}");
        let measured = Row::single(pauli, q);
        let clashing = self.stabilizers.iter().position(|r| r.clashes(&measured));
        match clashing {
            Some(j) => {
                self.replace(j, measured.with_sign(bit));
                Some(Measured {
                    outcome: bit,
                    determined: false,
                })
            }
            None if self.sign_of(&measured) == bit => Some(Measured {
                outcome: bit,
                determined: true,
            }),
            None => None,
        }
    }

    /// Measures a row of any weight, its own sign left out, with a bit by lot: the outcome is the sign
    /// with which it is in the group, and the bit where it is not.
    pub fn measure_row(&mut self, row: &Row, bit: u8) -> Measured {
        assert!(bit < 2, "bit {bit}");
        let row = row.with_sign(row.sign());
        if let Some(outcome) = self.value(&row) {
            return Measured {
                outcome,
                determined: true,
            };
        }
        let clashing = self.stabilizers.iter().position(|r| r.clashes(&row));
        self.replace(clashing.expect("no value"), row.with_sign(bit));
        Measured {
            outcome: bit,
            determined: false,
        }
    }

    /// The sign with which a row is in the group, 1 for minus; None where a generator does not commute
    /// with it. The row's own sign is left out.
    pub fn value(&self, row: &Row) -> Option<u8> {
        let commutes = !self.stabilizers.iter().any(|r| r.clashes(row));
        commutes.then(|| self.sign_of(row))
    }

    /// Puts a new generator in the place of generator j, the first that anticommutes with it.
    fn replace(&mut self, j: usize, new: Row) {
        let old = self.stabilizers[j];
        // Destabilizer j is overwritten, and generator j too.
        for row in self.rows().filter(|row| row.clashes(&new)) {
            row.multiply(&old);
        }
        self.destabilizers[j] = old;
        self.stabilizers[j] = new;
    }

    /// The sign with which a row that commutes with all generators is in the group: it is the
    /// product of the generators whose destabilizers anticommute with it.
    fn sign_of(&self, row: &Row) -> u8 {
        let mut product = Row::IDENTITY;
        for (generator, other) in self.stabilizers.iter().zip(&self.destabilizers) {
            if other.clashes(row) {
                product.multiply(generator);
            }
        }
        product.sign()
    }

    fn rows(&mut self) -> impl Iterator<Item = &mut Row> {
        self.stabilizers.iter_mut().chain(&mut self.destabilizers)
    }
}
