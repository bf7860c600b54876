//! The image of a graph in plain Rust: the refusals, then the image rule.

use super::codes::Codes;
use super::{odd, places, refusals, LIST_PLACES};

/// Writes the image graph of a record, its signs and the complementations, or answers the number of
/// the refusal.
pub fn image(
    n: u64,
    neighbours: &[u64],
    codes: &[u8],
    image: &mut [u64],
    signs: &mut [u8],
    list: &mut [u8],
    count: &mut u64,
) -> u8 {
    match refusals::of_record(n, neighbours, codes, &[image.len(), signs.len()]) {
        0 | 5.. if list.len() != LIST_PLACES => return 4,
        0 => (),
        refusal => return refusal,
    }
    let rule = Rule::run(neighbours, Codes::new(codes));
    if rule.codes.z.x != 0 {
        return 11;
    }
    if rule.codes.x.z != 0 {
        return 12;
    }
    for (j, &around) in rule.neighbours[..image.len()].iter().enumerate() {
        image[j] = around;
        let own = rule.codes.x.minus >> j & 1 == 1;
        signs[j] = u8::from(own ^ odd(rule.codes.z.minus & around));
    }
    rule.write_list(list, count);
    0
}

/// A run of the image rule: the graph and the codes as they are, and the list.
///
/// C is 1 where the image of Z has an x bit, D where that of X has one.
pub struct Rule {
    neighbours: [u64; 64],
    codes: Codes,
    list: [u8; LIST_PLACES],
    count: usize,
}

impl Rule {
    /// Complements until the rule stops.
    pub fn run(neighbours: &[u64], codes: Codes) -> Rule {
        let mut rule = Rule {
            neighbours: [0; 64],
            codes,
            list: [0; LIST_PLACES],
            count: 0,
        };
        rule.neighbours[..neighbours.len()].copy_from_slice(neighbours);
        loop {
            let c = rule.codes.z.x;
            let both = c & rule.codes.x.x;
            if both != 0 {
                rule.complement(both.trailing_zeros() as usize);
            } else if let Some((j, k)) = rule.smallest_pair(c) {
                [j, k, j].into_iter().for_each(|v| rule.complement(v));
            } else {
                return rule;
            }
        }
    }

    /// Writes the list to the first places of a buffer.
    pub fn write_list(&self, list: &mut [u8], count: &mut u64) {
        list[..self.count].copy_from_slice(&self.list[..self.count]);
        *count = self.count as u64;
    }

    /// The smallest vertex of a set that is joined to one of the set above it, and the smallest of
    /// these.
    fn smallest_pair(&self, set: u64) -> Option<(usize, usize)> {
        places(set).find_map(|j| {
            let above = self.neighbours[j] & set & (u64::MAX << j);
            Some((j, places(above).next()?))
        })
    }

    /// Complements at a vertex and puts it on the list.
    fn complement(&mut self, v: usize) {
        let around = self.neighbours[v];
        for a in places(around) {
            self.neighbours[a] ^= around ^ 1 << a;
        }
        self.codes.complement(v, around);
        self.list[self.count] = v as u8;
        self.count += 1;
    }
}
