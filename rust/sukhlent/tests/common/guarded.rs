//! Buffers between guards.

use std::fmt::Debug;

/// The number of guard elements on either side.
const GUARD: usize = 70;

/// Elements that can fill a guard or an answer buffer before a call.
pub trait Pattern: Copy + PartialEq + Debug {
    /// An element that is no sign, no code, no word of few qubits and no part of an amplitude.
    fn pattern(place: usize) -> Self;
}

impl Pattern for u8 {
    fn pattern(place: usize) -> u8 {
        0x80 | (place * 37 % 127) as u8
    }
}

impl Pattern for u16 {
    fn pattern(place: usize) -> u16 {
        0x8000 | (place * 37 % 32_749) as u16
    }
}

impl Pattern for u64 {
    fn pattern(place: usize) -> u64 {
        0xa55a_c33c_0000_0001 | (place as u64) << 8
    }
}

impl Pattern for f64 {
    fn pattern(place: usize) -> f64 {
        -3.5 - place as f64
    }
}

/// A lent buffer with guards on either side.
pub struct Guarded<T> {
    cells: Vec<T>,
    before: Vec<T>,
}

impl<T: Pattern> Guarded<T> {
    /// A buffer that holds the given elements.
    pub fn holding(content: &[T]) -> Guarded<T> {
        let mut cells: Vec<T> = (0..content.len() + 2 * GUARD).map(T::pattern).collect();
        cells[GUARD..GUARD + content.len()].copy_from_slice(content);
        let before = cells.clone();
        Guarded { cells, before }
    }

    /// A buffer of so many places, filled with a pattern.
    pub fn patterned(length: usize) -> Guarded<T> {
        let content: Vec<T> = (0..length).map(T::pattern).collect();
        Guarded::holding(&content)
    }

    /// The buffer.
    pub fn lent(&mut self) -> &mut [T] {
        let end = self.cells.len() - GUARD;
        &mut self.cells[GUARD..end]
    }

    /// Panics where the buffer or a guard has changed.
    pub fn assert_unchanged(&self, name: &str) {
        assert_eq!(self.cells, self.before, "{name} has changed");
    }

    /// The content after the call. Panics where a guard has changed.
    pub fn answer(&self, name: &str) -> Vec<T> {
        let end = self.cells.len() - GUARD;
        let guards = |cells: &[T]| [&cells[..GUARD], &cells[end..]].concat();
        assert_eq!(
            guards(&self.cells),
            guards(&self.before),
            "a guard of {name} has changed"
        );
        self.cells[GUARD..end].to_vec()
    }
}
