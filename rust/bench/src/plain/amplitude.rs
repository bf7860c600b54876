//! The amplitude at a word in plain Rust: the refusals, then elimination over the generators.

use super::codes::Codes;
use super::{places, refusals, Row};

/// Writes the amplitude at y over that at the smallest word with a nonzero amplitude, and the
/// probability, or answers the number of the refusal.
#[allow(clippy::too_many_arguments)]
pub fn amplitude(
    n: u64,
    neighbours: &[u64],
    codes: &[u8],
    used: u64,
    y: u64,
    re: &mut f64,
    im: &mut f64,
    p: &mut f64,
) -> u8 {
    let number = refusals::of_record(n, neighbours, codes, &[]);
    if number == 2 || number == 4 {
        return number;
    }
    if (used | y) & !(u64::MAX >> (64 - n)) != 0 {
        return 5;
    }
    let wrong = |q: usize| neighbours[q] != 0 || codes[q] > 10 || codes[q] % 2 == 1;
    if number != 0 {
        return number;
    }
    if places(used).any(wrong) {
        return 7;
    }
    let group = Echelon::of(neighbours, codes);
    (*re, *im, *p) = (0.0, 0.0, 0.0);
    if group.supports(y) {
        let low = group.lowest();
        let parts = [(1.0, 0.0), (0.0, 1.0), (-1.0, 0.0), (0.0, -1.0)];
        (*re, *im) = parts[group.leading(low ^ y).turns(low) as usize];
        *p = (0..group.rank()).fold(1.0, |p, _| p / 2.0);
    }
    0
}

/// A word with a nonzero amplitude: the smallest, moved by the rows that a word chooses.
pub fn supported_word(neighbours: &[u64], codes: &[u8], chosen: u64) -> u64 {
    let group = Echelon::of(neighbours, codes);
    let rows = places(chosen).map(|b| group.moving[b].x);
    rows.fold(group.lowest(), |word, x| word ^ x)
}

/// Generators of a group: those with x bits by their lowest one, and those without by their lowest z
/// bit. A place without a row holds the identity.
struct Echelon {
    moving: [Row; 64],
    still: [Row; 64],
}

impl Echelon {
    fn of(neighbours: &[u64], codes: &[u8]) -> Echelon {
        let mut group = Echelon {
            moving: [Row::default(); 64],
            still: [Row::default(); 64],
        };
        let codes = Codes::new(codes);
        for (j, &word) in neighbours.iter().enumerate() {
            group.add(codes.image(Row::new(false, word, 1 << j)));
        }
        group
    }

    /// Adds a row, reduced by those that are there.
    fn add(&mut self, mut row: Row) {
        while row.x != 0 {
            let place = &mut self.moving[row.x.trailing_zeros() as usize];
            if place.x == 0 {
                *place = row;
                return;
            }
            row.multiply(*place);
        }
        loop {
            let place = &mut self.still[row.z.trailing_zeros() as usize];
            if place.z == 0 {
                *place = row;
                return;
            }
            row.multiply(*place);
        }
    }

    fn rank(&self) -> usize {
        self.moving.iter().filter(|row| row.x != 0).count()
    }

    /// Whether every row without x bits keeps the sign of the word.
    fn supports(&self, y: u64) -> bool {
        self.still.iter().all(|row| row.turns(y) == 0)
    }

    /// The smallest word that they keep, from the highest bit down: a bit is 1 only where a row asks
    /// for it.
    fn lowest(&self) -> u64 {
        let asks = |word: u64, b: usize| word | u64::from(self.still[b].turns(word) == 2) << b;
        (0..64).rev().fold(0, asks)
    }

    /// The product of rows with these x bits.
    fn leading(&self, mut bits: u64) -> Row {
        let mut product = Row::default();
        while bits != 0 {
            let row = self.moving[bits.trailing_zeros() as usize];
            product.multiply(row);
            bits ^= row.x;
        }
        product
    }
}
