//! Faults in the arguments of a call. Where a buffer is too short for a fault, it is left out.

use super::calls::{ListCall, RecordCall};
use super::seeded::{isolate, Random};
use sukhlent::Refusal;

/// Takes a place out of a buffer.
pub fn cut<T>(places: &mut Vec<T>, j: usize) {
    places.remove(j);
}

/// Sets a place, where there is one.
pub fn put<T>(places: &mut [T], j: usize, value: T) {
    if let Some(place) = places.get_mut(j) {
        *place = value;
    }
}

/// Flips a bit of a word, where there is one.
pub fn flip(words: &mut [u64], j: usize, bit: u32) {
    if let Some(word) = words.get_mut(j) {
        *word ^= 1 << bit;
    }
}

/// Makes row a fail to commute with row b, by X or Z at the first qubit where row b acts.
pub fn anticommute(call: &mut ListCall, a: usize, b: usize) {
    let (Some(&z), Some(&x)) = (call.z.get(b), call.x.get(b)) else {
        return;
    };
    if z | x == 0 {
        return;
    }
    let clash = |call: &ListCall| {
        let ones = (call.z[a] & x).count_ones() + (call.x[a] & z).count_ones();
        ones % 2 == 1
    };
    if a < call.z.len() && a < call.x.len() && !clash(call) {
        let q = (z | x).trailing_zeros();
        let words = if x >> q & 1 == 1 {
            &mut call.z
        } else {
            &mut call.x
        };
        flip(words, a, q);
    }
}

/// Puts the letters of row b into row a.
pub fn repeat(call: &mut ListCall, a: usize, b: usize) {
    if let (Some(&z), Some(&x)) = (call.z.get(b), call.x.get(b)) {
        put(&mut call.z, a, z);
        put(&mut call.x, a, x);
    }
}

/// One random fault of a list, or none.
pub fn damage_list(random: &mut Random, call: &mut ListCall) {
    let n = call.n.clamp(1, 64) as usize;
    let (a, b) = (random.below(n), random.below(n));
    match random.below(12) {
        0 => call.n = [0, 65, u64::MAX][random.below(3)],
        1 => call.z.truncate(a),
        2 => call.codes = n + 1,
        3 => flip(&mut call.z, a, random.below(64) as u32),
        4 => flip(&mut call.x, a, random.below(64) as u32),
        5 => put(&mut call.signs, a, random.word() as u8),
        6 => flip(&mut call.z, a, b as u32),
        7 => flip(&mut call.x, a, b as u32),
        8 | 9 => repeat(call, a, b),
        10 => anticommute(call, a, b),
        _ => put(&mut call.signs, a, random.below(2) as u8),
    }
}

/// A fault: its number, and what it does to the arguments of a call.
pub type Fault<C> = (u8, fn(&mut C));

/// The faults of a list on 8 qubits. They leave rows 2 to 5 to the lines 5 and 6, rows 0 and 1 to
/// line 9 and the last two to line 10, so that each fault stays true beside the others.
pub const LIST_FAULTS: [Fault<ListCall>; 24] = [
    (2, |call| call.n = 0),
    (2, |call| call.n = 65),
    (2, |call| call.n = u64::MAX),
    (4, |call| call.signs.push(0)),
    (4, |call| cut(&mut call.signs, 2)),
    (4, |call| call.z.push(0)),
    (4, |call| cut(&mut call.z, 5)),
    (4, |call| call.x.push(0)),
    (4, |call| call.x.clear()),
    (4, |call| call.n -= 1),
    (5, |call| flip(&mut call.z, 2, 8)),
    (5, |call| flip(&mut call.z, 5, 63)),
    (5, |call| flip(&mut call.x, 3, 8)),
    (5, |call| flip(&mut call.x, 5, 40)),
    (6, |call| put(&mut call.signs, 0, 2)),
    (6, |call| put(&mut call.signs, 3, 255)),
    (6, |call| put(&mut call.signs, 7, 128)),
    (9, |call| anticommute(call, 0, 1)),
    (9, |call| anticommute(call, 1, 0)),
    (9, |call| anticommute(call, 5, 2)),
    (10, |call| repeat(call, 6, 7)),
    (10, |call| repeat(call, 7, 6)),
    (10, |call| {
        put(&mut call.z, 6, 0);
        put(&mut call.x, 6, 0);
    }),
    (10, |call| {
        repeat(call, 7, 6);
        let other = 1 - call.signs[6];
        put(&mut call.signs, 7, other);
    }),
];

/// The faults of a record on 8 vertices, whatever goes with it.
pub fn record_faults<W>() -> Vec<Fault<RecordCall<W>>> {
    vec![
        (2, |call| call.n = 0),
        (2, |call| call.n = 65),
        (2, |call| call.n = u64::MAX),
        (4, |call| call.neighbours.push(0)),
        (4, |call| call.neighbours.truncate(7)),
        (4, |call| call.codes.push(0)),
        (4, |call| call.codes.clear()),
        (4, |call| call.n += 1),
        (5, |call| flip(&mut call.neighbours, 0, 8)),
        (5, |call| flip(&mut call.neighbours, 5, 63)),
        (6, |call| put(&mut call.codes, 0, 24)),
        (6, |call| put(&mut call.codes, 3, 255)),
        (6, |call| put(&mut call.codes, 7, 32)),
        (7, |call| flip(&mut call.neighbours, 0, 0)),
        (7, |call| flip(&mut call.neighbours, 6, 6)),
        (7, |call| flip(&mut call.neighbours, 0, 6)),
        (7, |call| flip(&mut call.neighbours, 6, 0)),
        (7, |call| flip(&mut call.neighbours, 3, 4)),
    ]
}

/// The faults of the used word of a record on 8 vertices, whatever goes with it. They leave vertex 0
/// with its neighbours.
pub fn used_faults<W>() -> Vec<Fault<RecordCall<W>>> {
    vec![
        (5, |call| call.used |= 1 << 8),
        (5, |call| call.used |= 1 << 63),
        (5, |call| call.used = u64::MAX),
        (7, |call| use_with_neighbours(call, 2)),
        (7, |call| use_with_neighbours(call, 7)),
        (7, |call| use_with_code(call, 3, 1)),
        (7, |call| use_with_code(call, 3, 11)),
        (7, |call| use_with_code(call, 6, 12)),
        (7, |call| use_with_code(call, 7, 23)),
    ]
}

/// Marks a vertex that has an edge to vertex 0 as used; its code is one that a used vertex may have.
fn use_with_neighbours<W>(call: &mut RecordCall<W>, q: usize) {
    if call.neighbours.len() > q {
        call.neighbours[0] |= 1 << q;
        call.neighbours[q] |= 1;
    }
    put(&mut call.codes, q, 8);
    call.used |= 1 << q;
}

/// Marks a vertex without neighbours as used, with a code.
fn use_with_code<W>(call: &mut RecordCall<W>, q: usize, code: u8) {
    if call.neighbours.len() > q {
        isolate(&mut call.neighbours, q);
    }
    put(&mut call.codes, q, code);
    call.used |= 1 << q;
}

/// One random fault of a record, or none.
pub fn damage_record<W>(random: &mut Random, call: &mut RecordCall<W>) {
    let n = call.n.clamp(1, 64) as usize;
    let (a, b) = (random.below(n), random.below(n));
    match random.below(9) {
        0 => call.n = [0, 65, u64::MAX][random.below(3)],
        1 => call.neighbours.truncate(a),
        2 => call.codes.push(0),
        3 => flip(&mut call.neighbours, a, random.below(64) as u32),
        4 => put(&mut call.codes, a, random.word() as u8),
        5 => flip(&mut call.neighbours, a, b as u32),
        6 => call.used ^= 1 << a,
        7 => call.used ^= 1 << random.below(64),
        _ => put(&mut call.codes, a, random.below(24) as u8),
    }
}

/// Each fault alone gives its number.
pub fn each_fault<C>(
    faults: &[Fault<C>],
    base: impl Fn() -> C,
    assert_refused: impl Fn(&C, u8, &str),
) {
    for (k, (number, damage)) in faults.iter().enumerate() {
        let mut call = base();
        damage(&mut call);
        assert_refused(&call, *number, &format!("fault {k}"));
    }
}

/// Of two faults the number that is checked earlier is given. The later one's fault comes first, so
/// that it cannot undo the earlier one's.
pub fn each_pair<C>(
    faults: &[Fault<C>],
    base: impl Fn() -> C,
    assert_refused: impl Fn(&C, u8, &str),
) {
    for (k, (number, damage)) in faults.iter().enumerate() {
        for (m, (later, further)) in faults.iter().enumerate() {
            if place(*number) < place(*later) {
                let mut call = base();
                further(&mut call);
                damage(&mut call);
                assert_refused(&call, *number, &format!("faults {k} and {m}"));
            }
        }
    }
}

/// Each set of faults, given in checking order, with the number of its first; the empty set has none.
pub fn each_set<C>(
    faults: &[Fault<C>],
    base: impl Fn() -> C,
    assert_given: impl Fn(&C, Option<u8>),
) {
    for set in 0..1_u32 << faults.len() {
        let mut call = base();
        let chosen = (0..faults.len()).filter(|k| set >> k & 1 == 1);
        chosen.clone().for_each(|k| faults[k].1(&mut call));
        assert_given(&call, chosen.map(|k| faults[k].0).next());
    }
}

/// The place of a number in the checking order.
fn place(number: u8) -> Option<usize> {
    Refusal::ALL.iter().position(|r| r.number() == number)
}
