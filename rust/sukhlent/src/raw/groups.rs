//! The calls of two groups on one record.

use super::{LentRecord, LentStore};

/// A group as the raw calls take it: the word whose bit q is the group of qubit q, and the group.
///
/// ```
/// // Group 1 has the qubits 32 to 63.
/// let upper: sukhlent::raw::Whose = (0xffff_ffff_0000_0000, 1);
/// assert_eq!(upper.0.count_ones(), 32);
/// ```
pub type Whose = (u64, u8);

calls! {
    /// A group's gate.
    ///
    /// ```
    /// use sukhlent::{codes, raw};
    ///
    /// let (mut neighbours, mut held, lower) = ([0; 64], [codes::H; 64], (!0 << 32, 0));
    /// assert_eq!(raw::group_gate(64, lower, &mut neighbours, &mut held, 0, 3, codes::H), 0);
    /// assert_eq!(held[3], 0);
    /// assert_eq!(raw::group_gate(64, lower, &mut neighbours, &mut held, 0, 40, codes::H), 19);
    /// ```
    pub fn group_gate(
        n: u64, (word, group): Whose, neighbours: &mut [u64], codes: &mut [u8], used: u64,
        qubit: u64, code: u8,
    ) = sukhlent_group_gate;

    /// A group's CZ.
    ///
    /// ```
    /// use sukhlent::raw;
    ///
    /// let (mut neighbours, mut codes, lower) = ([0; 64], [0; 64], (!0 << 32, 0));
    /// assert_eq!(raw::group_cz(64, lower, &mut neighbours, &mut codes, 0, 0, 1), 0);
    /// assert_eq!(neighbours[..2], [2, 1]);
    /// assert_eq!(raw::group_cz(64, lower, &mut neighbours, &mut codes, 0, 0, 40), 19);
    /// ```
    pub fn group_cz(
        n: u64, (word, group): Whose, neighbours: &mut [u64], codes: &mut [u8], used: u64,
        a: u64, b: u64,
    ) = sukhlent_group_cz;

    /// A group's measurement.
    ///
    /// ```
    /// use sukhlent::raw;
    ///
    /// let (mut neighbours, mut codes, mut used) = ([0; 64], [8; 64], 0);
    /// let (mut answer, mut determined) = (9, 9);
    /// let number = raw::group_measure(
    ///     64, (!0 << 32, 1), &mut neighbours, &mut codes, &mut used, 1, 40, 1, &mut answer, &mut determined,
    /// );
    /// assert_eq!((number, answer, determined), (0, 1, 0));
    /// assert_eq!((codes[40], used), (2, 1 << 40));
    /// ```
    pub fn group_measure(
        n: u64, (word, group): Whose, neighbours: &mut [u64], codes: &mut [u8], used: &mut u64,
        pauli: u8, qubit: u64, outcome: u8, answer: &mut u8, determined: &mut u8,
    ) = sukhlent_group_measure;

    /// A group's measurement with a bit by lot.
    ///
    /// ```
    /// use sukhlent::raw;
    ///
    /// // Qubit 40 is in +Z: the bit 1 is not the outcome.
    /// let (mut neighbours, mut codes, mut used) = ([0; 64], [8; 64], 0);
    /// let (mut answer, mut determined) = (9, 9);
    /// let number = raw::group_observe(
    ///     64, (!0 << 32, 1), &mut neighbours, &mut codes, &mut used, 3, 40, 1, &mut answer, &mut determined,
    /// );
    /// assert_eq!((number, answer, determined, used), (0, 0, 1, 1 << 40));
    /// ```
    pub fn group_observe(
        n: u64, (word, group): Whose, neighbours: &mut [u64], codes: &mut [u8], used: &mut u64,
        pauli: u8, qubit: u64, bit: u8, answer: &mut u8, determined: &mut u8,
    ) = sukhlent_group_observe;

    /// A group's new photon at a used qubit.
    ///
    /// ```
    /// use sukhlent::raw;
    ///
    /// let (mut neighbours, mut codes, mut used) = ([0; 64], [8; 64], 1 << 40);
    /// let mut renew = |group, qubit| {
    ///     raw::group_renew(64, (!0 << 32, group), &mut neighbours, &mut codes, &mut used, qubit, 2)
    /// };
    /// assert_eq!([renew(0, 40), renew(1, 41), renew(1, 40)], [19, 20, 0]);
    /// assert_eq!((codes[40], used), (2, 0));
    /// ```
    pub fn group_renew(
        n: u64, (word, group): Whose, neighbours: &mut [u64], codes: &mut [u8], used: &mut u64,
        qubit: u64, code: u8,
    ) = sukhlent_group_renew;

    /// A group's complementation.
    ///
    /// ```
    /// // Complementing at 0 by group 0 and at 40 by group 1 leaves 13 then 8 at both.
    /// let (mut neighbours, mut codes, word) = ([0; 64], [8; 64], !0 << 32);
    /// for (group, a) in [(0, 0), (1, 40)] {
    ///     let whose = (word, group);
    ///     assert_eq!(sukhlent::raw::group_complement(64, whose, &mut neighbours, &mut codes, 0, a), 0);
    /// }
    /// assert_eq!((codes[0], codes[40]), (20, 20));
    /// ```
    pub fn group_complement(
        n: u64, (word, group): Whose, neighbours: &mut [u64], codes: &mut [u8], used: u64,
        a: u64,
    ) = sukhlent_group_complement;

    /// Saves a group's vertices under a name, among its four places.
    ///
    /// ```
    /// let (mut heads, mut words, mut codes) = ([0; 24], [0; 512], [0; 512]);
    /// let start = (64, &[0; 64][..], &[8; 64][..], 0);
    /// let upper = (!0 << 32, 1);
    /// let number = sukhlent::raw::group_save(start, upper, 7, &mut heads, &mut words, &mut codes);
    /// assert_eq!((number, &heads[12..15]), (0, &[64, 7, 0][..]));
    /// ```
    pub fn group_save(
        (n, neighbours, codes, used): LentRecord, (word, group): Whose, name: u64,
        heads: &mut [u64], held_neighbours: &mut [u64], held_codes: &mut [u8],
    ) = sukhlent_group_save;

    /// Brings back a group's vertices from the state that it holds under a name.
    ///
    /// ```
    /// let (mut words, mut codes, mut used) = ([0; 64], [8; 64], 0);
    /// let empty = (&[0; 24][..], &[0; 512][..], &[0; 512][..]);
    /// let whose = (!0 << 32, 0);
    /// let number = sukhlent::raw::group_return(64, whose, &mut words, &mut codes, &mut used, 7, empty);
    /// assert_eq!(number, 17);
    /// ```
    pub fn group_return(
        n: u64, (word, group): Whose, neighbours: &mut [u64], codes: &mut [u8], used: &mut u64,
        name: u64, (heads, held_neighbours, held_codes): LentStore,
    ) = sukhlent_group_return;

    /// Makes the place of a name among a group's four free.
    ///
    /// ```
    /// let start = (64, &[0; 64][..], &[8; 64][..], 0);
    /// let whose = (!0 << 32, 0);
    /// assert_eq!(sukhlent::raw::group_forget(start, whose, 7, &mut [0; 24], &[0; 512], &[0; 512]), 17);
    /// ```
    pub fn group_forget(
        (n, neighbours, codes, used): LentRecord, (word, group): Whose, name: u64,
        heads: &mut [u64], held_neighbours: &[u64], held_codes: &[u8],
    ) = sukhlent_group_forget;
}
