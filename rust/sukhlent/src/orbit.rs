//! Orbits of graphs under local complementation.

use crate::{raw, Refusal};

/// All graphs that complementations reach from one, each once.
///
/// ```
/// // An edge is alone on its list.
/// let found = sukhlent::orbit(&[0b10, 0b01])?;
/// assert_eq!((found.n, found.numbers), (2, vec![1]));
/// # Ok::<(), sukhlent::Refusal>(())
/// ```
#[derive(Clone, Debug, PartialEq, Eq)]
pub struct Orbit {
    /// The number of vertices, 1 to 6.
    pub n: usize,
    /// The numbers of the graphs, rising: a bit for each pair of vertices, the pairs in the order
    /// 0-1, 0-2, .., 0-(n-1), 1-2, .. and the first lowest.
    pub numbers: Vec<u16>,
}

impl Orbit {
    /// The neighbour words of each graph, in the order of the numbers.
    ///
    /// ```
    /// let found = sukhlent::orbit(&[0b10, 0b01])?;
    /// assert_eq!(found.graphs().collect::<Vec<_>>(), [[0b10, 0b01]]);
    /// # Ok::<(), sukhlent::Refusal>(())
    /// ```
    pub fn graphs(&self) -> impl Iterator<Item = Vec<u64>> + '_ {
        let numbers = self.numbers.iter();
        numbers.map(|&number| graph(self.n, number))
    }
}

/// The neighbour words of the graph on n vertices, at most 6, that has this number.
fn graph(n: usize, number: u16) -> Vec<u64> {
    let mut neighbours = vec![0; n];
    let pairs = (0..n).flat_map(|low| (low + 1..n).map(move |high| (low, high)));
    for (k, (low, high)) in pairs.enumerate() {
        let edge = u64::from(number >> k & 1);
        neighbours[low] |= edge << high;
        neighbours[high] |= edge << low;
    }
    neighbours
}

/// All graphs that complementations reach from the graph with these neighbour words, itself among
/// them. The graph has at most 6 vertices.
///
/// Refusals: 2 (no vertex, or more than 6), 5, 7.
///
/// ```
/// use sukhlent::orbit;
///
/// // The path 0 - 1 - 2: the three paths on three vertices, and the triangle.
/// let found = orbit(&[0b010, 0b101, 0b010])?;
/// assert_eq!(found.numbers, [3, 5, 6, 7]);
/// assert_eq!(found.graphs().last(), Some(vec![0b110, 0b101, 0b011]));
/// # Ok::<(), sukhlent::Refusal>(())
/// ```
pub fn orbit(neighbours: &[u64]) -> Result<Orbit, Refusal> {
    let n = neighbours.len();
    let mut numbers = vec![0; raw::ORBIT_PLACES];
    let mut count = 0;
    let number = raw::orbit(n as u64, neighbours, &mut numbers, &mut count);
    Refusal::unless_accepted(number)?;
    numbers.truncate(count as usize);
    Ok(Orbit { n, numbers })
}
