//! The C calls, with slices in place of pointers and lengths.
//!
//! Each call checks the lengths itself, so any slices may be given. The answer is the number of
//! the refusal, or 0; a refused call leaves every slice as it was.
//! None uses the heap.
//!
//! ```
//! use sukhlent::{codes, raw};
//!
//! // A Bell state in arrays: +Z twice, Hadamards, CZ, and a Hadamard at qubit 1.
//! let (mut neighbours, mut held) = ([0; 2], [codes::H; 2]);
//! assert_eq!(raw::gate(2, &mut neighbours, &mut held, 0, 0, codes::H), 0);
//! assert_eq!(raw::gate(2, &mut neighbours, &mut held, 0, 1, codes::H), 0);
//! assert_eq!(raw::cz(2, &mut neighbours, &mut held, 0, 0, 1), 0);
//! assert_eq!(raw::gate(2, &mut neighbours, &mut held, 0, 1, codes::H), 0);
//! assert_eq!((neighbours, held), ([2, 1], [0, 8]));
//! ```

#[macro_use]
mod lend;
mod groups;

pub use groups::{
    group_complement, group_cz, group_forget, group_gate, group_measure, group_observe,
    group_renew, group_return, group_save, Whose,
};

/// The bytes of a buffer that is lent for the text of a job.
///
/// ```
/// use sukhlent::raw;
///
/// // Three lines of names, and 4,096 of the longest steps.
/// let names = "qubits\n64\nop a b value\n".len();
/// assert_eq!(raw::JOB_PLACES, names + 4096 * "measure 63 0 5\n".len());
/// ```
pub const JOB_PLACES: usize = 61_463;

/// The places of a buffer that is lent for the numbers of an orbit.
///
/// ```
/// // One for each graph on six vertices.
/// assert_eq!(sukhlent::raw::ORBIT_PLACES, 1 << (6 * 5 / 2));
/// ```
pub const ORBIT_PLACES: usize = 32_768;

/// The version of the library: major * 10000 + minor * 100 + patch.
///
/// ```
/// // Before 1.0 the major number is 0.
/// assert_eq!(sukhlent::raw::version() / 10_000, 0);
/// ```
pub fn version() -> u32 {
    extern "C" {
        fn sukhlent_version() -> u32;
    }
    // SAFETY: the call takes nothing and answers a constant.
    unsafe { sukhlent_version() }
}

/// A generator list as the raw calls take it: n, signs, z and x.
///
/// ```
/// let bell: sukhlent::raw::Lent = (2, &[0, 0], &[0, 3], &[3, 0]);
/// assert_eq!(bell.0, 2);
/// ```
pub type Lent<'a> = (u64, &'a [u8], &'a [u64], &'a [u64]);

/// A record without its used word, as it is lent: n, neighbour words, codes.
///
/// ```
/// // A Bell state with itself.
/// let bell: sukhlent::raw::LentGraph = (2, &[2, 1], &[0, 8]);
/// let (mut choice, mut list, mut count) = ([9; 2], [99; 96], 9);
/// assert_eq!(sukhlent::raw::compare_records(bell, bell, &mut choice, &mut list, &mut count), 0);
/// assert_eq!((choice, count), ([0, 0], 0));
/// ```
pub type LentGraph<'a> = (u64, &'a [u64], &'a [u8]);

/// A record as the raw calls take it: n, neighbour words, codes and the used word.
///
/// ```
/// let zero: sukhlent::raw::LentRecord = (1, &[0], &[8], 0);
/// assert_eq!(zero.0, 1);
/// ```
pub type LentRecord<'a> = (u64, &'a [u64], &'a [u8], u64);

/// A store as the raw calls read it: heads, neighbour words and codes.
///
/// ```
/// let empty: sukhlent::raw::LentStore = (&[0; 24], &[0; 512], &[0; 512]);
/// assert_eq!(empty.0.len(), 24);
/// ```
pub type LentStore<'a> = (&'a [u64], &'a [u64], &'a [u8]);

calls! {
    /// Checks a generator list.
    ///
    /// ```
    /// // XX, ZZ; then XI, ZI, which do not commute.
    /// assert_eq!(sukhlent::raw::check(2, &[0, 0], &[0, 3], &[3, 0]), 0);
    /// assert_eq!(sukhlent::raw::check(2, &[0, 0], &[0, 1], &[1, 0]), 9);
    /// ```
    pub fn check(n: u64, signs: &[u8], z: &[u64], x: &[u64]) = sukhlent_check;

    /// Writes the reduced record of a generator list, with the word 0 of used qubits.
    ///
    /// ```
    /// use sukhlent::raw;
    ///
    /// let (mut neighbours, mut codes, mut used) = ([0; 2], [0; 2], 7);
    /// let number = raw::reduce(2, &[0, 0], &[0, 3], &[3, 0], &mut neighbours, &mut codes, &mut used);
    /// assert_eq!((number, neighbours, codes, used), (0, [2, 1], [0, 8], 0));
    /// ```
    pub fn reduce(
        n: u64, signs: &[u8], z: &[u64], x: &[u64], neighbours: &mut [u64], codes: &mut [u8],
        used: &mut u64,
    ) = sukhlent_reduce;

    /// Writes the generators of a record.
    ///
    /// ```
    /// use sukhlent::raw;
    ///
    /// let (mut signs, mut z, mut x) = ([9; 2], [9; 2], [9; 2]);
    /// let number = raw::expand(2, &[2, 1], &[0, 8], 0, &mut signs, &mut z, &mut x);
    /// assert_eq!((number, signs, z, x), (0, [0, 0], [0, 3], [3, 0]));
    /// ```
    pub fn expand(
        n: u64, neighbours: &[u64], codes: &[u8], used: u64, signs: &mut [u8], z: &mut [u64],
        x: &mut [u64],
    ) = sukhlent_expand;

    /// Applies a code after the code held at a qubit, and reduces the record.
    ///
    /// ```
    /// use sukhlent::{codes, raw};
    ///
    /// let (mut neighbours, mut held) = ([0], [codes::H]);
    /// assert_eq!(raw::gate(1, &mut neighbours, &mut held, 0, 0, codes::X), 0);
    /// assert_eq!(held, [10]);
    /// assert_eq!(raw::gate(1, &mut neighbours, &mut held, 0, 1, codes::X), 8);
    /// ```
    pub fn gate(
        n: u64, neighbours: &mut [u64], codes: &mut [u8], used: u64, qubit: u64, code: u8,
    ) = sukhlent_gate;

    /// Applies CZ to two qubits, and reduces the record.
    ///
    /// ```
    /// use sukhlent::raw;
    ///
    /// let (mut neighbours, mut codes) = ([0, 0], [0, 0]);
    /// assert_eq!(raw::cz(2, &mut neighbours, &mut codes, 0, 0, 1), 0);
    /// assert_eq!(neighbours, [2, 1]);
    /// ```
    pub fn cz(
        n: u64, neighbours: &mut [u64], codes: &mut [u8], used: u64, a: u64, b: u64,
    ) = sukhlent_cz;

    /// Measures a Pauli (1 X, 2 Y, 3 Z) at a qubit, reduces the record, sets the qubit's bit of the used
    /// word, and writes the outcome and whether it was determined.
    ///
    /// ```
    /// use sukhlent::raw;
    ///
    /// let (mut neighbours, mut codes, mut used) = ([2, 1], [0, 8], 0);
    /// let (mut answer, mut determined) = (9, 9);
    /// let number = raw::measure(
    ///     2, &mut neighbours, &mut codes, &mut used, 3, 0, 1, &mut answer, &mut determined,
    /// );
    /// assert_eq!((number, answer, determined), (0, 1, 0));
    /// assert_eq!((neighbours, codes, used), ([0, 0], [10, 10], 1));
    /// ```
    pub fn measure(
        n: u64, neighbours: &mut [u64], codes: &mut [u8], used: &mut u64, pauli: u8, qubit: u64,
        outcome: u8, answer: &mut u8, determined: &mut u8,
    ) = sukhlent_measure;

    /// Measures a Pauli (1 X, 2 Y, 3 Z) at a qubit with a bit by lot: as [`measure`], but where the state
    /// determines the outcome the bit plays no part.
    ///
    /// ```
    /// use sukhlent::raw;
    ///
    /// // Qubit 0 is in -Z already: the bit 0 is not the outcome.
    /// let (mut neighbours, mut codes, mut used) = ([0, 0], [10, 10], 0);
    /// let (mut answer, mut determined) = (9, 9);
    /// let number = raw::observe(
    ///     2, &mut neighbours, &mut codes, &mut used, 3, 0, 0, &mut answer, &mut determined,
    /// );
    /// assert_eq!((number, answer, determined), (0, 1, 1));
    /// assert_eq!((neighbours, codes, used), ([0, 0], [10, 10], 1));
    /// ```
    pub fn observe(
        n: u64, neighbours: &mut [u64], codes: &mut [u8], used: &mut u64, pauli: u8, qubit: u64,
        bit: u8, answer: &mut u8, determined: &mut u8,
    ) = sukhlent_observe;

    /// Measures a Pauli row, letter (z, x) at each qubit, with a bit by lot; no qubit is used up.
    ///
    /// ```
    /// use sukhlent::raw;
    ///
    /// // The parity ZZ of two photons in +X: by lot, and then it is determined.
    /// let (mut neighbours, mut codes) = ([0, 0], [0, 0]);
    /// let (mut answer, mut determined) = (9, 9);
    /// let number = raw::measure_row(
    ///     2, &mut neighbours, &mut codes, 0, 0b11, 0b00, 1, &mut answer, &mut determined,
    /// );
    /// assert_eq!((number, answer, determined), (0, 1, 0));
    /// assert_eq!((neighbours, codes), ([2, 1], [0, 10]));
    /// raw::measure_row(2, &mut neighbours, &mut codes, 0, 0b11, 0b00, 0, &mut answer, &mut determined);
    /// assert_eq!((answer, determined), (1, 1));
    /// ```
    pub fn measure_row(
        n: u64, neighbours: &mut [u64], codes: &mut [u8], used: u64, z: u64, x: u64, bit: u8,
        answer: &mut u8, determined: &mut u8,
    ) = sukhlent_measure_row;

    /// Puts a new photon at a used qubit, in the state of its code: 0, 2, 4, 6, 8 or 10.
    ///
    /// ```
    /// use sukhlent::raw;
    ///
    /// let (mut neighbours, mut codes, mut used) = ([0, 0], [10, 10], 1);
    /// assert_eq!(raw::renew(2, &mut neighbours, &mut codes, &mut used, 1, 0), 20);
    /// assert_eq!(raw::renew(2, &mut neighbours, &mut codes, &mut used, 0, 0), 0);
    /// assert_eq!((neighbours, codes, used), ([0, 0], [0, 10], 0));
    /// ```
    pub fn renew(
        n: u64, neighbours: &mut [u64], codes: &mut [u8], used: &mut u64, qubit: u64, code: u8,
    ) = sukhlent_renew;

    /// Complements the record at a vertex.
    ///
    /// ```
    /// use sukhlent::raw;
    ///
    /// let (mut neighbours, mut codes) = ([2, 5, 2], [0; 3]);
    /// assert_eq!(raw::complement(3, &mut neighbours, &mut codes, 0, 1), 0);
    /// assert_eq!((neighbours, codes), ([6, 5, 3], [6, 13, 6]));
    /// ```
    pub fn complement(
        n: u64, neighbours: &mut [u64], codes: &mut [u8], used: u64, a: u64,
    ) = sukhlent_complement;

    /// Runs steps on the record, one after the other, and writes what each answers.
    ///
    /// ```
    /// use sukhlent::{codes, raw};
    ///
    /// // +Z; a Hadamard, X measured with the bit 1, which +X contradicts, and with the bit 0.
    /// let (mut neighbours, mut held, mut used) = ([0], [codes::H], 0);
    /// let (ops, a, b, value) = ([0, 2, 2], [0; 3], [0; 3], [8, 1, 0]);
    /// let (mut refusals, mut outcomes, mut determined) = ([9; 3], [9; 3], [9; 3]);
    /// let number = raw::run(
    ///     1, &mut neighbours, &mut held, &mut used, &ops, &a, &b, &value, &mut refusals,
    ///     &mut outcomes, &mut determined,
    /// );
    /// assert_eq!((number, held, used), (0, [0], 1));
    /// assert_eq!((refusals, outcomes, determined), ([0, 14, 0], [0; 3], [0, 0, 1]));
    /// ```
    pub fn run(
        n: u64, neighbours: &mut [u64], codes: &mut [u8], used: &mut u64, ops: &[u8], a: &[u16],
        b: &[u16], value: &[u16], refusals: &mut [u8], outcomes: &mut [u8],
        determined: &mut [u8],
    ) = sukhlent_run;

    /// Writes the graph to which the codes send a graph, its signs, and the complementations.
    ///
    /// ```
    /// use sukhlent::raw;
    ///
    /// let (mut graph, mut signs, mut list, mut count) = ([0; 3], [9; 3], [99; 96], 0);
    /// let number = raw::image(
    ///     3, &[6, 1, 1], &[12, 4, 4], &mut graph, &mut signs, &mut list, &mut count,
    /// );
    /// assert_eq!((number, graph, signs, count), (0, [6, 5, 3], [0; 3], 1));
    /// assert_eq!(list[..2], [0, 99]);
    /// ```
    pub fn image(
        n: u64, neighbours: &[u64], codes: &[u8], image: &mut [u64], signs: &mut [u8],
        list: &mut [u8], count: &mut u64,
    ) = sukhlent_image;

    /// Writes the rank of the edges between the marked side of a record's vertices and the other.
    ///
    /// ```
    /// let mut rank = 9;
    /// assert_eq!(sukhlent::raw::cut(2, &[2, 1], &[0, 8], 0, 0b01, &mut rank), 0);
    /// assert_eq!(rank, 1);
    /// ```
    pub fn cut(
        n: u64, neighbours: &[u64], codes: &[u8], used: u64, side: u64, rank: &mut u64,
    ) = sukhlent_cut;

    /// Writes the amplitude at a word over that at the smallest word with a nonzero amplitude, real part
    /// and imaginary part, and the word's probability.
    ///
    /// ```
    /// // -Y: i over 1 at the word 1 is minus.
    /// let (mut re, mut im, mut p) = (9.0, 9.0, 9.0);
    /// let number = sukhlent::raw::amplitude(1, &[0], &[6], 0, 1, &mut re, &mut im, &mut p);
    /// assert_eq!((number, re, im, p), (0, 0.0, -1.0, 0.5));
    /// ```
    pub fn amplitude(
        n: u64, neighbours: &[u64], codes: &[u8], used: u64, y: u64, re: &mut f64, im: &mut f64,
        p: &mut f64,
    ) = sukhlent_amplitude;

    /// Writes the value of a Pauli row in a record's group: 0 for plus, 1 for minus, 2 for neither.
    ///
    /// ```
    /// // XX, ZZ: YY is there with a minus, XI is not.
    /// let mut value = 9;
    /// assert_eq!(sukhlent::raw::expectation(2, &[2, 1], &[0, 8], 0, 3, 3, &mut value), 0);
    /// assert_eq!(value, 1);
    /// assert_eq!(sukhlent::raw::expectation(2, &[2, 1], &[0, 8], 0, 0, 1, &mut value), 0);
    /// assert_eq!(value, 2);
    /// ```
    pub fn expectation(
        n: u64, neighbours: &[u64], codes: &[u8], used: u64, z: u64, x: u64, value: &mut u8,
    ) = sukhlent_expectation;

    /// Writes the product of the rows that a word chooses, and its power of i.
    ///
    /// ```
    /// // X times Y is iZ.
    /// let (mut z, mut x, mut phase) = (9, 9, 9);
    /// let rows = (2, &[0, 0][..], &[0, 1][..], &[1, 1][..]);
    /// assert_eq!(sukhlent::raw::product(rows, 0b11, &mut z, &mut x, &mut phase), 0);
    /// assert_eq!((z, x, phase), (1, 0, 1));
    /// ```
    pub fn product(
        (n, signs, z, x): Lent, chosen: u64, product_z: &mut u64, product_x: &mut u64,
        phase: &mut u8,
    ) = sukhlent_product;

    /// Writes the least choice that carries one group onto another, and the complementations.
    ///
    /// ```
    /// // A list compared with itself, the same slices: nothing is to be done.
    /// let bell = (2, &[0, 0][..], &[0, 3][..], &[3, 0][..]);
    /// let (mut choice, mut list, mut count) = ([9; 2], [99; 96], 9);
    /// assert_eq!(sukhlent::raw::compare(bell, bell, &mut choice, &mut list, &mut count), 0);
    /// assert_eq!((choice, count, list[0]), ([0, 0], 0, 99));
    /// ```
    pub fn compare(
        (n1, signs1, z1, x1): Lent, (n2, signs2, z2, x2): Lent, choice: &mut [u8],
        list: &mut [u8], count: &mut u64,
    ) = sukhlent_compare;

    /// Writes the least choice that carries the group of one record onto that of another, and the
    /// complementations.
    ///
    /// ```
    /// // The graph of one edge, as it is and with a Hadamard at vertex 1.
    /// let edge = (2, &[2, 1][..], &[0, 0][..]);
    /// let bell = (2, &[2, 1][..], &[0, 8][..]);
    /// let (mut choice, mut list, mut count) = ([9; 2], [99; 96], 9);
    /// let number = sukhlent::raw::compare_records(edge, bell, &mut choice, &mut list, &mut count);
    /// assert_eq!((number, choice, count, list[0]), (0, [0, 8], 0, 99));
    /// ```
    pub fn compare_records(
        (n1, neighbours1, codes1): LentGraph, (n2, neighbours2, codes2): LentGraph,
        choice: &mut [u8], list: &mut [u8], count: &mut u64,
    ) = sukhlent_compare_records;

    /// Writes what [`compare`] writes, with parts of any size.
    ///
    /// ```
    /// // A GHZ state on 21 qubits with itself: its reduced graph is one part.
    /// let (signs, z) = ([0; 21], std::array::from_fn::<u64, 21, _>(|q| if q == 0 { 0 } else { 3 << (q - 1) }));
    /// let x = std::array::from_fn::<u64, 21, _>(|q| if q == 0 { (1 << 21) - 1 } else { 0 });
    /// let ghz = (21, &signs[..], &z[..], &x[..]);
    /// let (mut choice, mut list, mut count) = ([9; 21], [99; 96], 9);
    /// assert_eq!(sukhlent::raw::compare(ghz, ghz, &mut choice, &mut list, &mut count), 3);
    /// assert_eq!(sukhlent::raw::equivalent(ghz, ghz, &mut choice, &mut list, &mut count), 0);
    /// assert_eq!((choice, count, list[0]), ([0; 21], 0, 99));
    /// ```
    pub fn equivalent(
        (n1, signs1, z1, x1): Lent, (n2, signs2, z2, x2): Lent, choice: &mut [u8],
        list: &mut [u8], count: &mut u64,
    ) = sukhlent_equivalent;

    /// Writes what [`compare_records`] writes, with parts of any size.
    ///
    /// ```
    /// // A star on 64 vertices with itself, its centre 0.
    /// let words: [u64; 64] = std::array::from_fn(|q| if q == 0 { !1 } else { 1 });
    /// let star = (64, &words[..], &[0; 64][..]);
    /// let (mut choice, mut list, mut count) = ([9; 64], [99; 96], 9);
    /// assert_eq!(sukhlent::raw::compare_records(star, star, &mut choice, &mut list, &mut count), 3);
    /// assert_eq!(sukhlent::raw::equivalent_records(star, star, &mut choice, &mut list, &mut count), 0);
    /// assert_eq!((choice, count, list[0]), ([0; 64], 0, 99));
    /// ```
    pub fn equivalent_records(
        (n1, neighbours1, codes1): LentGraph, (n2, neighbours2, codes2): LentGraph,
        choice: &mut [u8], list: &mut [u8], count: &mut u64,
    ) = sukhlent_equivalent_records;

    /// Writes the text of the job of `count` steps on n qubits that is drawn from a seed.
    ///
    /// ```
    /// use sukhlent::raw;
    ///
    /// let (mut text, mut length) = (vec![0; raw::JOB_PLACES], 0);
    /// assert_eq!(raw::generate(64, 1, 1, &mut text, &mut length), 0);
    /// assert_eq!(&text[..length as usize], b"qubits\n64\nop a b value\ngate 8 0 4\n");
    /// ```
    pub fn generate(
        n: u64, count: u64, seed: u64, text: &mut [u8], length: &mut u64,
    ) = sukhlent_generate;

    /// Writes the generator list of a text of Pauli strings.
    ///
    /// ```
    /// let (mut signs, mut z, mut x) = ([9; 2], [9; 2], [9; 2]);
    /// let number = sukhlent::raw::read_strings(b"+XX\n-ZZ\n", &mut signs, &mut z, &mut x);
    /// assert_eq!((number, signs, z, x), (0, [0, 1], [0, 3], [3, 0]));
    /// ```
    pub fn read_strings(
        text: &[u8], signs: &mut [u8], z: &mut [u64], x: &mut [u64],
    ) = sukhlent_read_strings;

    /// Writes the text of a generator list as Pauli strings.
    ///
    /// ```
    /// let mut text = [0; 8];
    /// let bell = (2, &[0, 1][..], &[0, 3][..], &[3, 0][..]);
    /// assert_eq!(sukhlent::raw::write_strings(bell, &mut text), 0);
    /// assert_eq!(&text, b"+XX\n-ZZ\n");
    /// ```
    pub fn write_strings((n, signs, z, x): Lent, text: &mut [u8]) = sukhlent_write_strings;

    /// Writes the text of a record, and how many bytes it has.
    ///
    /// ```
    /// let (mut text, mut length) = ([0; 1627], 0);
    /// assert_eq!(sukhlent::raw::write_record(1, &[0], &[8], 0, &mut text, &mut length), 0);
    /// let due = b"qubit code neighbours used\n0 8 0000000000000000 0\n";
    /// assert_eq!(&text[..length as usize], due);
    /// ```
    pub fn write_record(
        n: u64, neighbours: &[u64], codes: &[u8], used: u64, text: &mut [u8], length: &mut u64,
    ) = sukhlent_write_record;

    /// Reads the record of a text into buffers of 64 places.
    ///
    /// ```
    /// let (mut n, mut neighbours, mut codes, mut used) = (0, [0; 64], [0; 64], 0);
    /// let text = b"qubit code neighbours used\n0 8 0000000000000000 0\n";
    /// let read = sukhlent::raw::read_record(text, &mut n, &mut neighbours, &mut codes, &mut used);
    /// assert_eq!((read, n, codes[0]), (0, 1, 8));
    /// ```
    pub fn read_record(
        text: &[u8], n: &mut u64, neighbours: &mut [u64], codes: &mut [u8], used: &mut u64,
    ) = sukhlent_read_record;

    /// Writes the numbers of all graphs that complementations reach from one, rising.
    ///
    /// ```
    /// use sukhlent::raw;
    ///
    /// let (mut list, mut count) = (vec![0; raw::ORBIT_PLACES], 0);
    /// assert_eq!(raw::orbit(3, &[2, 5, 2], &mut list, &mut count), 0);
    /// assert_eq!(list[..count as usize], [3, 5, 6, 7]);
    /// ```
    pub fn orbit(
        n: u64, neighbours: &[u64], list: &mut [u16], count: &mut u64,
    ) = sukhlent_orbit;

    /// Saves a record under a name into a store's three buffers: 24 heads, 512 neighbour words and 512
    /// codes.
    ///
    /// ```
    /// let (mut heads, mut words, mut codes) = ([0; 24], [0; 512], [0; 512]);
    /// let zero = (1, &[0][..], &[8][..], 0);
    /// assert_eq!(sukhlent::raw::save(zero, 7, &mut heads, &mut words, &mut codes), 0);
    /// assert_eq!((&heads[..3], codes[0]), (&[1, 7, 0][..], 8));
    /// ```
    pub fn save(
        (n, neighbours, codes, used): LentRecord, name: u64, heads: &mut [u64],
        held_neighbours: &mut [u64], held_codes: &mut [u8],
    ) = sukhlent_save;

    /// Brings back the record held under a name, into buffers of 64 places.
    ///
    /// ```
    /// let (mut n, mut words, mut codes, mut used) = (9, [9; 64], [9; 64], 9);
    /// let empty = (&[0; 24][..], &[0; 512][..], &[0; 512][..]);
    /// let number = sukhlent::raw::return_to(7, empty, &mut n, &mut words, &mut codes, &mut used);
    /// assert_eq!((number, n), (17, 9));
    /// ```
    pub fn return_to(
        name: u64, (heads, held_neighbours, held_codes): LentStore, n: &mut u64,
        neighbours: &mut [u64], codes: &mut [u8], used: &mut u64,
    ) = sukhlent_return;

    /// Makes the place of a name free.
    ///
    /// ```
    /// assert_eq!(sukhlent::raw::forget(7, &mut [0; 24], &[0; 512], &[0; 512]), 17);
    /// ```
    pub fn forget(
        name: u64, heads: &mut [u64], held_neighbours: &[u64], held_codes: &[u8],
    ) = sukhlent_forget;
}
