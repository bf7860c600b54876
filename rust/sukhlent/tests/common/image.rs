//! Images of a record's graph, on guarded buffers of any lengths and contents.

use super::calls::RecordCall;
use super::complementations::{Complementations, LIST_PLACES};
use super::guarded::Guarded;
use super::reference;
use sukhlent::{raw, Image, Record};

/// The lengths of the answer buffers of `image`.
#[derive(Clone, Debug)]
pub struct ImageLengths {
    pub image: usize,
    pub signs: usize,
    pub list: usize,
}

impl RecordCall<ImageLengths> {
    /// The call on a record, with lengths as they should be.
    pub fn image_of(record: &Record) -> RecordCall<ImageLengths> {
        let lengths = ImageLengths {
            image: record.n(),
            signs: record.n(),
            list: LIST_PLACES,
        };
        RecordCall::with(record, lengths)
    }

    /// The image that the call writes, or the number of its refusal.
    ///
    /// Asserts that the record and all guards keep their contents, on a refusal the answer buffers
    /// too, and always the list past its count.
    pub fn image(&self) -> Result<Image, u8> {
        let mut neighbours = Guarded::holding(&self.neighbours);
        let mut codes = Guarded::holding(&self.codes);
        let mut graph = Guarded::patterned(self.with.image);
        let mut signs = Guarded::patterned(self.with.signs);
        let mut complementations = Complementations::patterned(self.with.list);
        let (list, count) = complementations.lent();
        let number = raw::image(
            self.n,
            neighbours.lent(),
            codes.lent(),
            graph.lent(),
            signs.lent(),
            list,
            count,
        );
        neighbours.assert_unchanged("neighbours");
        codes.assert_unchanged("codes");
        if number != 0 {
            graph.assert_unchanged("image");
            signs.assert_unchanged("signs");
            complementations.assert_unchanged();
            return Err(number);
        }
        Ok(Image {
            neighbours: graph.answer("image"),
            signs: signs.answer("signs"),
            complementations: complementations.answer(),
        })
    }

    /// The number due to the record and the buffers' lengths; None where the image rule decides.
    pub fn due(&self) -> Option<u8> {
        let lengths = [self.with.image, self.with.signs];
        reference::image_refusal(self.n, &self.record(), &lengths, self.with.list)
    }

    /// Panics unless a number is the one due: 0, 11 or 12 where the image rule decides.
    pub fn assert_due(&self, number: u8) {
        match self.due() {
            Some(due) => assert_eq!(number, due, "{self:?}"),
            None => assert!([0, 11, 12].contains(&number), "{number}: {self:?}"),
        }
    }
}
