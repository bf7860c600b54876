//! Orbits of graphs, on a guarded buffer of any length.

use super::guarded::{Guarded, Pattern};
use super::reference;
use sukhlent::raw;

/// The arguments of a call, and the length of the buffer that it is lent.
#[derive(Clone, Debug)]
pub struct OrbitCall {
    pub n: u64,
    pub neighbours: Vec<u64>,
    pub places: usize,
}

impl OrbitCall {
    /// A call with a buffer of the required length.
    pub fn on(neighbours: &[u64]) -> OrbitCall {
        OrbitCall {
            n: neighbours.len() as u64,
            neighbours: neighbours.to_vec(),
            places: raw::ORBIT_PLACES,
        }
    }

    /// The numbers that the call writes, or the number of its refusal.
    ///
    /// Asserts that the guards, the words and the places past the count keep their contents, and on
    /// a refusal the whole list and the count too.
    pub fn orbit(&self) -> Result<Vec<u16>, u8> {
        let mut words = Guarded::holding(&self.neighbours);
        let mut list: Guarded<u16> = Guarded::patterned(self.places);
        let mut count: Guarded<u64> = Guarded::patterned(1);
        let to_count = &mut count.lent()[0];
        let number = raw::orbit(self.n, words.lent(), list.lent(), to_count);
        words.assert_unchanged("neighbours");
        if number != 0 {
            list.assert_unchanged("list");
            count.assert_unchanged("count");
            return Err(number);
        }
        let mut answer = list.answer("list");
        let count = count.answer("count")[0] as usize;
        let past = answer.iter().enumerate().skip(count);
        past.for_each(|(k, &entry)| assert_eq!(entry, u16::pattern(k), "{self:?}, place {k}"));
        answer.truncate(count);
        Ok(answer)
    }

    /// The answer due to the arguments.
    pub fn due(&self) -> Result<Vec<u16>, u8> {
        match reference::orbit_refusal(self.n, &self.neighbours, self.places) {
            0 => Ok(reference::orbit(&self.neighbours)),
            number => Err(number),
        }
    }
}
