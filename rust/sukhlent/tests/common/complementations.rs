//! The buffer for a list of complementations, with its count, between guards.

use super::guarded::Guarded;
use sukhlent::Comparison;

/// The places that a call requires of the list.
pub const LIST_PLACES: usize = 96;

/// A list of vertices and its count, lent for the answer.
pub struct Complementations {
    list: Guarded<u8>,
    count: Guarded<u64>,
}

impl Complementations {
    /// A list of so many places; list and count are filled with a pattern.
    pub fn patterned(places: usize) -> Complementations {
        Complementations {
            list: Guarded::patterned(places),
            count: Guarded::patterned(1),
        }
    }

    /// The list and the count.
    pub fn lent(&mut self) -> (&mut [u8], &mut u64) {
        (self.list.lent(), &mut self.count.lent()[0])
    }

    /// Panics where the list, the count or a guard has changed.
    pub fn assert_unchanged(&self) {
        self.list.assert_unchanged("list");
        self.count.assert_unchanged("count");
    }

    /// The vertices up to the count. Panics where a place past them or a guard has changed.
    pub fn answer(&self) -> Vec<u8> {
        let count = self.count.answer("count")[0] as usize;
        let places = self.list.answer("list");
        let untouched = Guarded::<u8>::patterned(places.len()).answer("pattern");
        assert_eq!(places[count..], untouched[count..], "past the count");
        places[..count].to_vec()
    }

    /// The comparison that a call wrote here and into a choice, or the number of its refusal, which
    /// leaves both as they were.
    pub fn compared(&self, number: u8, choice: &Guarded<u8>) -> Result<Comparison, u8> {
        if number != 0 {
            choice.assert_unchanged("choice");
            self.assert_unchanged();
            return Err(number);
        }
        Ok(Comparison {
            choice: choice.answer("choice"),
            complementations: self.answer(),
        })
    }
}
