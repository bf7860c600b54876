//! Graph images.

use crate::{raw, Record, Refusal};

/// The places of a buffer for a list of complementations.
pub(crate) const LIST_PLACES: usize = 96;

/// The graph to which the codes of a record send its graph: what [`image`] answers.
///
/// ```
/// use sukhlent::{image, Record};
///
/// // A plain graph is its own image.
/// let record = Record { neighbours: vec![0b10, 0b01], codes: vec![0, 2], used: 0 };
/// let found = image(&record)?;
/// assert_eq!(found.neighbours, record.neighbours);
/// assert_eq!(found.signs, [0, 1]);
/// # Ok::<(), sukhlent::Refusal>(())
/// ```
#[derive(Clone, Debug, Default, PartialEq, Eq, Hash)]
pub struct Image {
    /// The neighbours of each vertex.
    pub neighbours: Vec<u64>,
    /// 1 where the generator of a vertex is negative.
    pub signs: Vec<u8>,
    /// The vertices whose local complementations, in order, turn the one graph into the other.
    pub complementations: Vec<u8>,
}

/// The image of the record's graph under its codes. The record's used word is not read.
///
/// Refusals: 2, 4, 5, 6, 7, 11 where the state is that of no graph, 12 where the graph would need a
/// loop.
///
/// ```
/// use sukhlent::{codes, image, Record, Refusal};
///
/// // The star with these codes is the triangle.
/// let mut star = Record {
///     neighbours: vec![0b110, 0b001, 0b001],
///     codes: vec![codes::SQRT_X_DAG, codes::S, codes::S],
///     used: 0,
/// };
/// let found = image(&star)?;
/// assert_eq!(found.neighbours, [0b110, 0b101, 0b011]);
/// assert_eq!(found.complementations, [0]);
/// star.codes = vec![codes::I, codes::I, codes::S];
/// assert_eq!(image(&star), Err(Refusal::ImageY));
/// # Ok::<(), Refusal>(())
/// ```
pub fn image(record: &Record) -> Result<Image, Refusal> {
    let n = record.n();
    let mut answer = Image {
        neighbours: vec![0; n],
        signs: vec![0; n],
        complementations: vec![0; LIST_PLACES],
    };
    let mut count = 0;
    let number = raw::image(
        n as u64,
        &record.neighbours,
        &record.codes,
        &mut answer.neighbours,
        &mut answer.signs,
        &mut answer.complementations,
        &mut count,
    );
    answer.complementations.truncate(count as usize);
    Refusal::unless_accepted(number).map(|()| answer)
}
