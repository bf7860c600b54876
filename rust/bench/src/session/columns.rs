//! A tableau stored by columns: for each qubit a word of the generators and one of the destabilizers that have x there,
//! and the same for z. A gate is then a few operations on words. It checks nothing and reduces nothing.

use super::{record_of, Answer, Session};
use crate::codes::image;
use crate::operation::Operation;
use crate::seeded::pauli::{X, Y, Z};
use std::sync::OnceLock;
use sukhlent::Record;
use tableau::Measured;

/// The words of the generators and of the destabilizers.
type Pair = [u64; 2];

pub struct Columns {
    n: usize,
    x: [Pair; 64],
    z: [Pair; 64],
    minus: Pair,
    /// For each code the words with which a gate works.
    gates: &'static [Gate; 24],
}

/// Whether a code sends X and Z to letters with x and with z, and the letters whose images have a minus: 0 or all ones.
#[derive(Clone, Copy)]
struct Gate {
    x: Pair,
    z: Pair,
    minus: [u64; 3],
}

fn all(condition: bool) -> u64 {
    u64::from(condition).wrapping_neg()
}

impl Gate {
    fn new(code: u8) -> Gate {
        let [of_x, of_z] = [image(code, X).1, image(code, Z).1];
        Gate {
            x: [of_x, of_z].map(|to| all(to == X || to == Y)),
            z: [of_x, of_z].map(|to| all(to == Z || to == Y)),
            minus: [X, Z, Y].map(|letter| all(image(code, letter).0 == 2)),
        }
    }
}

fn gates() -> &'static [Gate; 24] {
    static GATES: OnceLock<[Gate; 24]> = OnceLock::new();
    GATES.get_or_init(|| std::array::from_fn(|code| Gate::new(code as u8)))
}

impl Columns {
    fn gate(&mut self, q: usize, code: u8) {
        let gate = &self.gates[usize::from(code)];
        for half in 0..2 {
            let (x, z) = (self.x[q][half], self.z[q][half]);
            let [of_x, of_z, of_y] = gate.minus;
            self.minus[half] ^= x & !z & of_x | z & !x & of_z | x & z & of_y;
            self.x[q][half] = x & gate.x[0] ^ z & gate.x[1];
            self.z[q][half] = x & gate.z[0] ^ z & gate.z[1];
        }
    }

    fn cz(&mut self, a: usize, b: usize) {
        for half in 0..2 {
            let (at_a, at_b) = (self.x[a][half], self.x[b][half]);
            self.minus[half] ^= at_a & at_b & (self.z[a][half] ^ self.z[b][half]);
            self.z[a][half] ^= at_b;
            self.z[b][half] ^= at_a;
        }
    }

    fn measure(&mut self, pauli: u8, q: usize, bit: u8) -> Answer {
        let clashes: Pair = std::array::from_fn(|half| match pauli {
            1 => self.z[q][half],
            2 => self.x[q][half] ^ self.z[q][half],
            _ => self.x[q][half],
        });
        let determined = clashes[0] == 0;
        if !determined {
            self.choose(pauli, q, bit, clashes);
        } else if self.sign(pauli, clashes[1]) != bit {
            return Answer::Refused;
        }
        Answer::Measured(Measured {
            outcome: bit,
            determined,
        })
    }

    /// The first generator that clashes goes into all other rows that do, becomes its destabilizer, and the Pauli takes
    /// its place.
    fn choose(&mut self, pauli: u8, q: usize, bit: u8, clashes: Pair) {
        let j = clashes[0].trailing_zeros();
        let own = 1u64 << j;
        let others = clashes.map(|word| word & !own);
        // The power of i of each row's product with generator j, in two bits.
        let (mut ones, mut twos) = ([0; 2], [0; 2]);
        for c in 0..self.n {
            let (by_x, by_z) = (
                all(self.x[c][0] >> j & 1 == 1),
                all(self.z[c][0] >> j & 1 == 1),
            );
            for half in 0..2 {
                let (x, z) = (self.x[c][half], self.z[c][half]);
                let clash = by_x & z ^ x & by_z;
                twos[half] ^= (ones[half] ^ x ^ by_x ^ z ^ by_z ^ x & by_z) & clash;
                ones[half] ^= clash;
                let kept = if half == 1 { own } else { 0 };
                self.x[c][half] = (x ^ by_x & others[half]) & !own | by_x & kept;
                self.z[c][half] = (z ^ by_z & others[half]) & !own | by_z & kept;
            }
        }
        let minus = all(self.minus[0] & own != 0);
        for half in 0..2 {
            self.minus[half] ^= others[half] & (twos[half] ^ minus);
        }
        self.minus[0] = self.minus[0] & !own | u64::from(bit) << j;
        if pauli != 3 {
            self.x[q][0] |= own;
        }
        if pauli != 1 {
            self.z[q][0] |= own;
        }
    }

    /// The sign of the product of the generators in a word, which is the Pauli or its negative.
    fn sign(&self, pauli: u8, chosen: u64) -> u8 {
        let (mut pairs, mut ones, mut twos) = (0, 0, 0);
        for (x, z) in self.x.iter().zip(&self.z).take(self.n) {
            let (x, z) = (x[0] & chosen, z[0] & chosen);
            // An x that comes after an odd number of z at this qubit turns the sign.
            let mut before = z << 1;
            for shift in [1, 2, 4, 8, 16, 32] {
                before ^= before << shift;
            }
            pairs ^= before & x;
            twos ^= ones & x & z;
            ones ^= x & z;
        }
        let halves = (self.minus[0] & chosen).count_ones() + pairs.count_ones() + twos.count_ones();
        let turns = 2 * halves + ones.count_ones();
        (turns.wrapping_sub(u32::from(pauli == 2)) / 2 % 2) as u8
    }
}

impl Session for Columns {
    fn start(n: usize) -> Columns {
        let one = |q: usize| if q < n { 1 << q } else { 0 };
        Columns {
            n,
            x: std::array::from_fn(|q| [0, one(q)]),
            z: std::array::from_fn(|q| [one(q), 0]),
            minus: [0; 2],
            gates: gates(),
        }
    }

    fn step(&mut self, operation: Operation) -> Answer {
        match operation {
            Operation::Gate(q, code) => self.gate(q as usize, code),
            Operation::Cz(a, b) => self.cz(a as usize, b as usize),
            Operation::Measure(pauli, q, bit) => return self.measure(pauli, q as usize, bit),
            _ => panic!("a tableau has no graph: {operation:?}"),
        }
        Answer::Done
    }

    fn record(&self) -> Record {
        let row = |columns: &[Pair; 64], j: usize| {
            let bits = columns.iter().enumerate();
            bits.fold(0, |row, (q, column)| row | (column[0] >> j & 1) << q)
        };
        let rows = 0..self.n;
        record_of(
            rows.clone()
                .map(|j| (self.minus[0] >> j & 1) as u8)
                .collect(),
            rows.clone().map(|j| row(&self.z, j)).collect(),
            rows.map(|j| row(&self.x, j)).collect(),
        )
    }
}
