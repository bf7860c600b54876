//! The least choice of local Cliffords that carries the group of one record onto another's.

use super::codes::{Codes, CLASSES};
use super::equations::{spread, unknowns, Table, Word};
use super::places;
use super::row::Row;

/// One code per qubit.
pub type Choice = [u8; 20];

/// The generators of a record and the codes that undo its codes.
pub struct Group {
    generators: [Row; 20],
    undoing: Codes,
}

impl Group {
    /// The group of a record on at most 20 qubits.
    pub fn new(neighbours: &[u64], codes: &Codes) -> Group {
        let mut generators = [Row::default(); 20];
        for (j, &around) in neighbours.iter().enumerate() {
            generators[j] = codes.image(Row::new(false, around, 1 << j));
        }
        Group {
            generators,
            undoing: codes.inverse(),
        }
    }

    /// The sign with which the letters of a row are in the group: the x bits in the graph's own
    /// letters name the generators whose product it must be.
    fn sign(&self, row: Row) -> Option<bool> {
        let mut product = Row::default();
        let (_, named) = self.undoing.letters(row.z, row.x);
        for j in places(named) {
            product.multiply(self.generators[j]);
        }
        (product.z == row.z && product.x == row.x).then(|| product.is_minus())
    }
}

/// A search: the generators of the first group, the second group, and equations that the classes
/// of every choice that works solve.
struct Search<'a> {
    first: &'a [Row],
    second: &'a Group,
    table: Table,
}

/// The least choice that works, by the classes of qubits 0, 1 and so on, then by the signs.
pub fn least_choice(n: usize, first: &Group, second: &Group) -> Option<Choice> {
    let search = Search {
        first: &first.generators[..n],
        second,
        table: class_table(&first.generators[..n], &second.generators[..n]),
    };
    let no_class =
        |q: usize| (0..6).all(|class| search.table.broken_alone(q, classes(1, q, class)));
    if (0..n).any(no_class) {
        return None;
    }
    search.classes([0; 20], 1, 0)
}

/// The equations by which the images of the first rows commute with the second rows.
///
/// A class sends z and x to a z + b x and c z + d x, and its unknowns are a, b, c and d.
fn class_table(first: &[Row], second: &[Row]) -> Table {
    let mut of_second = [0; 20];
    for (word, h) in of_second.iter_mut().zip(second) {
        *word = spread(h.x, 0b0011) | spread(h.z, 0b1100);
    }
    let mut table = Table::new();
    for g in first {
        let of_first = spread(g.z, 0b0101) | spread(g.x, 0b1010);
        for word in &of_second[..second.len()] {
            table.insert(of_first & word);
        }
    }
    table
}

/// The assignment with a class at qubit q.
fn classes(assignment: Word, q: usize, class: u8) -> Word {
    let [(b, d), (a, c)] = CLASSES[usize::from(class)];
    assignment | unknowns(q, (a | b << 1 | c << 2 | d << 3) as u8)
}

impl Search<'_> {
    /// The least choice that works with the classes given below q.
    fn classes(&self, mut choice: Choice, assignment: Word, q: usize) -> Option<Choice> {
        if q == self.first.len() {
            return self.signs(choice);
        }
        (0..6).find_map(|class| {
            let longer = classes(assignment, q, class);
            if self.table.broken(q, longer) {
                return None;
            }
            choice[q] = 4 * class;
            self.classes(choice, longer, q + 1)
        })
    }

    /// The least choice that works with the classes given: sx changes the sign of a row's image
    /// where the row has an x bit, sz where it has a z bit.
    fn signs(&self, mut choice: Choice) -> Option<Choice> {
        let n = self.first.len();
        let codes = Codes::new(&choice[..n]);
        let mut table = Table::new();
        for &g in self.first {
            let image = codes.image(g);
            let sum = self.second.sign(image)? ^ image.is_minus();
            table.insert(spread(g.x, 0b01) | spread(g.z, 0b10) | Word::from(sum));
        }
        let least = table.least();
        for (q, code) in choice[..n].iter_mut().enumerate() {
            let bit = |bits: u8| u8::from(least & unknowns(q, bits) != 0);
            *code += 2 * bit(0b01) + bit(0b10);
        }
        self.carries(&choice).then_some(choice)
    }

    /// Whether a choice carries the first group onto the second.
    fn carries(&self, choice: &Choice) -> bool {
        let codes = Codes::new(&choice[..self.first.len()]);
        self.first.iter().all(|&g| {
            let image = codes.image(g);
            self.second.sign(image) == Some(image.is_minus())
        })
    }
}
