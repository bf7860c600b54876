//! One local Clifford per qubit, held as words.

use super::odd;
use super::row::Row;

/// One letter per qubit, each with a sign of its own; bit q of the words belongs to qubit q.
#[derive(Clone, Copy, Default)]
pub struct Letters {
    pub z: u64,
    pub x: u64,
    pub minus: u64,
}

impl Letters {
    /// The letters of the words z and x, all with the sign plus.
    fn plus((z, x): (u64, u64)) -> Letters {
        Letters { z, x, minus: 0 }
    }

    /// i times the product of letters that differ: XY, YZ and ZX give minus, as XY = iZ.
    fn times_i(self, other: Letters) -> Letters {
        let xy = self.x & !self.z & other.x & other.z;
        let yz = self.x & self.z & other.z & !other.x;
        let zx = self.z & !self.x & other.x & !other.z;
        Letters {
            z: self.z ^ other.z,
            x: self.x ^ other.x,
            minus: self.minus ^ other.minus ^ (xy | yz | zx),
        }
    }

    /// The letters of another at some places, and these elsewhere.
    fn with(self, places: u64, other: Letters) -> Letters {
        let mixed = |own: u64, new: u64| own & !places | new & places;
        Letters {
            z: mixed(self.z, other.z),
            x: mixed(self.x, other.x),
            minus: mixed(self.minus, other.minus),
        }
    }
}

/// The letters to which X and Z go at each qubit.
#[derive(Clone, Copy)]
pub struct Codes {
    pub x: Letters,
    pub z: Letters,
}

/// The bits z and x of a letter.
type Bits = (u64, u64);
const X: Bits = (0, 1);
const Y: Bits = (1, 1);
const Z: Bits = (1, 0);

/// The letters to which X and Z go, by class.
pub const CLASSES: [[Bits; 2]; 6] = [[X, Z], [Y, Z], [Z, X], [X, Y], [Y, X], [Z, Y]];

impl Codes {
    /// The codes of the first qubits: 4 times the class, plus 2 sx, plus sz.
    pub fn new(codes: &[u8]) -> Codes {
        let [mut x, mut z] = [Letters::default(); 2];
        for (q, &code) in codes.iter().enumerate() {
            let signs = [code / 2 % 2, code % 2];
            let images = CLASSES[usize::from(code / 4)].into_iter().zip(signs);
            for (letters, ((to_z, to_x), minus)) in [&mut x, &mut z].into_iter().zip(images) {
                letters.z |= to_z << q;
                letters.x |= to_x << q;
                letters.minus |= u64::from(minus) << q;
            }
        }
        Codes { x, z }
    }

    /// The letters to which Y goes: i times the image of X times the image of Z.
    fn y(&self) -> Letters {
        self.x.times_i(self.z)
    }

    /// The words to which the codes send two words of letters, signs dropped.
    pub fn letters(&self, z: u64, x: u64) -> (u64, u64) {
        (self.z.z & z ^ self.x.z & x, self.z.x & z ^ self.x.x & x)
    }

    /// The row sent through the codes.
    pub fn image(&self, row: Row) -> Row {
        let of_x = self.x.minus & row.x & !row.z;
        let of_z = self.z.minus & row.z & !row.x;
        let of_y = self.y().minus & row.z & row.x;
        let (z, x) = self.letters(row.z, row.x);
        Row::new(odd(of_x | of_z | of_y) ^ row.is_minus(), z, x)
    }

    /// These codes first, then others, signs dropped.
    pub fn then(&self, next: &Codes) -> Codes {
        let [x, z] = [self.x, self.z].map(|to| Letters::plus(next.letters(to.z, to.x)));
        Codes { x, z }
    }

    /// The codes that undo these, signs dropped: the inverse matrices modulo 2.
    pub fn inverse(&self) -> Codes {
        Codes {
            x: Letters::plus((self.x.z, self.z.z)),
            z: Letters::plus((self.x.x, self.z.x)),
        }
    }

    /// The codes after complementing at v: 13 comes first at v, which sends Z to -Y, and 6 at its
    /// neighbours, which sends X to -Y.
    pub fn complement(&mut self, v: usize, neighbours: u64) {
        let y = self.y();
        let minus_y = Letters {
            minus: !y.minus,
            ..y
        };
        self.z = self.z.with(1 << v, minus_y);
        self.x = self.x.with(neighbours, minus_y);
    }
}
