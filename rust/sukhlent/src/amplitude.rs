//! Amplitudes.

use crate::{raw, Record, Refusal};

/// A line of a plot: the amplitude at a word over that at the smallest word with a nonzero amplitude,
/// and the word's probability.
///
/// ```
/// use sukhlent::{PlotLine, Record};
///
/// let line = Record::zeros(2).amplitude(0)?;
/// assert_eq!(line, PlotLine { re: 1.0, im: 0.0, p: 1.0 });
/// # Ok::<(), sukhlent::Refusal>(())
/// ```
#[derive(Clone, Copy, Debug, PartialEq)]
pub struct PlotLine {
    /// The real part: 0, 1 or -1.
    pub re: f64,
    /// The imaginary part: 0, 1 or -1; one of the two parts is 0. Every zero is positive.
    pub im: f64,
    /// 0 where the amplitude is 0, otherwise 2^-r with r the rank of the x words.
    pub p: f64,
}

impl Record {
    /// The amplitude of the record's state at the word y, bit q for qubit q, over that at the smallest
    /// word with a nonzero amplitude. Both parts and the probability are 0 exactly where the amplitude
    /// is.
    ///
    /// Refusals: 2, 4, 5 (also for a y with a bit outside of the qubits), 6, 7.
    ///
    /// ```
    /// use sukhlent::{reduce, PlotLine};
    ///
    /// // -ZZ, XY: |01> + i|10>, of which the first has qubit 0 set.
    /// let record = reduce(&"-ZZ\n+XY\n".parse()?)?;
    /// let nothing = PlotLine { re: 0.0, im: 0.0, p: 0.0 };
    /// assert_eq!(record.amplitude(0b00)?, nothing);
    /// assert_eq!(record.amplitude(0b01)?, PlotLine { re: 1.0, im: 0.0, p: 0.5 });
    /// assert_eq!(record.amplitude(0b10)?, PlotLine { re: 0.0, im: 1.0, p: 0.5 });
    /// assert_eq!(record.amplitude(0b11)?, nothing);
    /// # Ok::<(), sukhlent::Refusal>(())
    /// ```
    pub fn amplitude(&self, y: u64) -> Result<PlotLine, Refusal> {
        let (mut re, mut im, mut p) = (0.0, 0.0, 0.0);
        let (n, words, codes, used) = self.lent();
        let number = raw::amplitude(n, words, codes, used, y, &mut re, &mut im, &mut p);
        Refusal::unless_accepted(number).map(|()| PlotLine { re, im, p })
    }
}
