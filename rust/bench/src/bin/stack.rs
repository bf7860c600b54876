//! The stack that each public call needs, at the largest number of qubits that it takes.
//!
//! The room below the caller is painted; the lowest byte that a call changes says how deep it went.
//! Arguments that pass on the stack are counted with it.

#[path = "../../../sukhlent/tests/common/seeded/mod.rs"]
mod seeded;

use seeded::{list, mixed, random_components, random_record, random_rows, rows, Random};
use std::arch::asm;
use sukhlent::{expand, raw, GeneratorList};

/// The painted room, in bytes.
const ROOM: usize = 1 << 20;
/// The byte that it is painted with.
const PAINT: u8 = 0xa5;
/// The number of seeded arguments for each call.
const CASES: u64 = 100;

/// A call: its name, the number of qubits, and what is measured with a seed.
type Measured = (&'static str, usize, fn(&mut Random, usize) -> usize);

/// A comparison of two lists, and of two records.
type Compare = fn(raw::Lent, raw::Lent, &mut [u8], &mut [u8], &mut u64) -> u8;
type CompareRecords = fn(raw::LentGraph, raw::LentGraph, &mut [u8], &mut [u8], &mut u64) -> u8;

/// The groups of two halves.
const LOWER: raw::Whose = (!0 << 32, 0);
const UPPER: raw::Whose = (!0 << 32, 1);

/// Every public call. All arguments are accepted, so that every step is taken.
const CALLS: [Measured; 41] = [
    ("check", 64, |random, n| {
        let given = list(&random_rows(random, n));
        depth(|| raw::check(n as u64, &given.signs, &given.z, &given.x))
    }),
    ("reduce", 64, |random, n| {
        let GeneratorList { signs, z, x } = list(&random_rows(random, n));
        let (mut neighbours, mut codes, mut used) = ([0; 64], [0; 64], 0);
        let (words, bytes) = (&mut neighbours, &mut codes);
        depth(|| raw::reduce(n as u64, &signs, &z, &x, words, bytes, &mut used))
    }),
    ("expand", 64, |random, n| {
        let (neighbours, codes, used) = used_pairs(random, n);
        let (mut signs, mut z, mut x) = ([0; 64], [0; 64], [0; 64]);
        let list = (&mut signs, &mut z, &mut x);
        depth(|| raw::expand(n as u64, &neighbours, &codes, used, list.0, list.1, list.2))
    }),
    ("gate", 64, |random, n| {
        in_place(random, n, |n, words, codes, used| {
            raw::gate(n, words, codes, *used, 0, 8)
        })
    }),
    ("cz", 64, |random, n| {
        in_place(random, n, |n, words, codes, used| {
            raw::cz(n, words, codes, *used, 0, 61)
        })
    }),
    ("measure", 64, |random, n| {
        let (mut answer, mut determined) = (0, 0);
        in_place(random, n, |n, words, codes, used| {
            raw::measure(n, words, codes, used, 3, 0, 1, &mut answer, &mut determined)
        })
    }),
    ("observe", 64, |random, n| {
        let (mut answer, mut determined) = (0, 0);
        in_place(random, n, |n, words, codes, used| {
            raw::observe(n, words, codes, used, 3, 0, 1, &mut answer, &mut determined)
        })
    }),
    ("measure_row", 64, |random, n| {
        let (mut answer, mut determined) = (0, 0);
        let told = (&mut answer, &mut determined);
        let (z, x) = (random.word(), random.word());
        in_place(random, n, |n, words, codes, used| {
            let kept = !*used;
            raw::measure_row(
                n,
                words,
                codes,
                *used,
                z & kept,
                x & kept,
                1,
                told.0,
                told.1,
            )
        })
    }),
    ("renew", 64, |random, n| {
        in_place(random, n, |n, words, codes, used| {
            raw::renew(n, words, codes, used, 63, 0)
        })
    }),
    ("complement", 64, |random, n| {
        in_place(random, n, |n, words, codes, used| {
            raw::complement(n, words, codes, *used, 0)
        })
    }),
    ("run", 64, |random, n| {
        // Every operation, and more steps than a block of the runner has.
        let ops: Vec<u8> = (0..100).map(|_| random.below(7) as u8).collect();
        let [a, b] = [0, 1].map(|_| {
            (0..100)
                .map(|_| random.below(n) as u16)
                .collect::<Vec<u16>>()
        });
        let value: Vec<u16> = ops
            .iter()
            .map(|&op| [8, 0, 5, 0, 0, 5, 8][usize::from(op)])
            .collect();
        let b: Vec<u16> = ops
            .iter()
            .zip(&b)
            .map(|(op, &b)| b * u16::from([1, 4].contains(op)))
            .collect();
        let (mut refusals, mut outcomes, mut determined) = ([0; 100], [0; 100], [0; 100]);
        let told = (&mut refusals, &mut outcomes, &mut determined);
        in_place(random, n, |n, words, codes, used| {
            raw::run(
                n, words, codes, used, &ops, &a, &b, &value, told.0, told.1, told.2,
            )
        })
    }),
    ("image", 64, |random, n| {
        let (neighbours, codes) = pairs(random, n);
        let (mut image, mut signs, mut list, mut count) = ([0; 64], [0; 64], [0; 96], 0);
        let (image, signs, list) = (&mut image, &mut signs, &mut list);
        depth(|| {
            raw::image(
                n as u64,
                &neighbours,
                &codes,
                image,
                signs,
                list,
                &mut count,
            )
        })
    }),
    ("cut", 64, |random, n| {
        let (neighbours, codes, used) = used_pairs(random, n);
        // One vertex of each pair: every column joins the basis.
        let side = 0x5555_5555_5555_5555;
        let mut rank = 0;
        depth(|| raw::cut(n as u64, &neighbours, &codes, used, side, &mut rank))
    }),
    ("amplitude", 64, |random, n| {
        let (neighbours, codes, used) = used_pairs(random, n);
        let (mut re, mut im, mut p) = (0.0, 0.0, 0.0);
        let parts = (&mut re, &mut im);
        depth(|| {
            raw::amplitude(
                n as u64,
                &neighbours,
                &codes,
                used,
                0,
                parts.0,
                parts.1,
                &mut p,
            )
        })
    }),
    ("expectation", 64, |random, n| {
        let (neighbours, codes, used) = used_pairs(random, n);
        let (z, x) = (random.word(), random.word());
        let mut value = 0;
        depth(|| raw::expectation(n as u64, &neighbours, &codes, used, z, x, &mut value))
    }),
    ("save", 64, |random, n| {
        let (neighbours, codes, used) = used_pairs(random, n);
        let (mut heads, mut words, mut bytes) = full_store(random);
        let record = (n as u64, &*neighbours, &*codes, used);
        depth(|| raw::save(record, 7, &mut heads, &mut words, &mut bytes))
    }),
    ("return", 64, |random, _| {
        let (heads, words, bytes) = full_store(random);
        let (mut n, mut neighbours, mut codes, mut used) = (0, [0; 64], [0; 64], 0);
        let store = (&heads[..], &words[..], &bytes[..]);
        depth(|| raw::return_to(7, store, &mut n, &mut neighbours, &mut codes, &mut used))
    }),
    ("forget", 64, |random, _| {
        let (mut heads, words, bytes) = full_store(random);
        depth(|| raw::forget(7, &mut heads, &words, &bytes))
    }),
    ("group_gate", 64, |random, n| {
        in_place(random, n, |n, words, codes, used| {
            raw::group_gate(n, LOWER, words, codes, *used, 0, 8)
        })
    }),
    ("group_cz", 64, |random, n| {
        in_place(random, n, |n, words, codes, used| {
            raw::group_cz(n, LOWER, words, codes, *used, 0, 29)
        })
    }),
    ("group_measure", 64, |random, n| {
        let (mut answer, mut determined) = (0, 0);
        let outcome = (&mut answer, &mut determined);
        in_place(random, n, |n, words, codes, used| {
            raw::group_measure(n, LOWER, words, codes, used, 3, 0, 1, outcome.0, outcome.1)
        })
    }),
    ("group_observe", 64, |random, n| {
        let (mut answer, mut determined) = (0, 0);
        let outcome = (&mut answer, &mut determined);
        in_place(random, n, |n, words, codes, used| {
            raw::group_observe(n, LOWER, words, codes, used, 3, 0, 1, outcome.0, outcome.1)
        })
    }),
    ("group_renew", 64, |random, n| {
        in_place(random, n, |n, words, codes, used| {
            raw::group_renew(n, UPPER, words, codes, used, 63, 0)
        })
    }),
    ("group_complement", 64, |random, n| {
        in_place(random, n, |n, words, codes, used| {
            raw::group_complement(n, LOWER, words, codes, *used, 0)
        })
    }),
    ("group_save", 64, |random, n| {
        let (neighbours, codes, used) = used_pairs(random, n);
        let (mut heads, mut words, mut bytes) = groups_store(random);
        let record = (n as u64, &*neighbours, &*codes, used);
        depth(|| raw::group_save(record, LOWER, 3, &mut heads, &mut words, &mut bytes))
    }),
    ("group_return", 64, |random, n| {
        let (heads, words, bytes) = groups_store(random);
        let store = (&heads[..], &words[..], &bytes[..]);
        in_place(random, n, |n, words, codes, used| {
            raw::group_return(n, LOWER, words, codes, used, 3, store)
        })
    }),
    ("group_forget", 64, |random, n| {
        let (neighbours, codes, used) = used_pairs(random, n);
        let (mut heads, words, bytes) = groups_store(random);
        let record = (n as u64, &*neighbours, &*codes, used);
        depth(|| raw::group_forget(record, LOWER, 3, &mut heads, &words, &bytes))
    }),
    ("product", 64, |random, n| {
        let given = list(&random_rows(random, n));
        let lent = (n as u64, &*given.signs, &*given.z, &*given.x);
        let (mut z, mut x, mut phase) = (0, 0, 0);
        depth(|| raw::product(lent, u64::MAX, &mut z, &mut x, &mut phase))
    }),
    ("compare", 10, of_compare),
    ("compare", 20, of_compare),
    ("compare", 64, of_compare),
    ("compare_records", 64, of_compare_records),
    ("equivalent", 21, of_equivalent),
    ("equivalent", 64, of_equivalent),
    ("equivalent_records", 64, of_equivalent_records),
    ("generate", 64, |random, n| {
        let (mut text, mut length) = (vec![0; raw::JOB_PLACES], 0);
        let seed = random.word() | 1;
        depth(|| raw::generate(n as u64, 4096, seed, &mut text, &mut length))
    }),
    ("read_strings", 64, |random, n| {
        let text = list(&random_rows(random, n)).to_string();
        let (mut signs, mut z, mut x) = ([0; 64], [0; 64], [0; 64]);
        depth(|| raw::read_strings(text.as_bytes(), &mut signs, &mut z, &mut x))
    }),
    ("write_strings", 64, |random, n| {
        let given = list(&random_rows(random, n));
        let lent = (n as u64, &*given.signs, &*given.z, &*given.x);
        let mut text = [0; 64 * 66];
        depth(|| raw::write_strings(lent, &mut text))
    }),
    ("write_record", 64, |random, n| {
        let given = random_record(random, n);
        let (mut text, mut length) = ([0; 1627], 0);
        depth(|| {
            raw::write_record(
                n as u64,
                &given.neighbours,
                &given.codes,
                0,
                &mut text,
                &mut length,
            )
        })
    }),
    ("read_record", 64, |random, n| {
        let text = random_record(random, n).to_string();
        let (mut count, mut used) = (0, 0);
        let (mut neighbours, mut codes) = ([0; 64], [0; 64]);
        depth(|| {
            raw::read_record(
                text.as_bytes(),
                &mut count,
                &mut neighbours,
                &mut codes,
                &mut used,
            )
        })
    }),
    ("orbit", 6, |random, n| {
        let graph = random_record(random, n).neighbours;
        let (mut list, mut count) = (vec![0; raw::ORBIT_PLACES], 0);
        depth(|| raw::orbit(n as u64, &graph, &mut list, &mut count))
    }),
];

/// A comparison of a state with itself, by other generators. The state is in parts of 20, or in one
/// part. Every comparison that is accepted goes as deep as its largest part is large: through all
/// its classes, then through all its signs.
fn of_compare(random: &mut Random, n: usize) -> usize {
    let sizes = [20, 20, 20, 20].map(|size: usize| size.min(n));
    let mut rest = n;
    let fitting = sizes.map(|size| {
        let taken = size.min(rest);
        rest -= taken;
        taken
    });
    of_lists(raw::compare, random, &fitting)
}

/// The same of a state in one part.
fn of_equivalent(random: &mut Random, n: usize) -> usize {
    of_lists(raw::equivalent, random, &[n])
}

fn of_lists(compare: Compare, random: &mut Random, sizes: &[usize]) -> usize {
    let record = random_components(random, sizes);
    let n = record.n();
    let rows = rows(&expand(&record).expect("a simple graph"));
    let [a, b] = [list(&rows), list(&mixed(random, &rows))];
    let [a, b] = [&a, &b].map(|list| (n as u64, &*list.signs, &*list.z, &*list.x));
    let (mut choice, mut list, mut count) = (vec![0; n], [0; 96], 0);
    depth(|| compare(a, b, &mut choice, &mut list, &mut count))
}

/// A comparison of a record with itself, in parts of 20.
fn of_compare_records(random: &mut Random, n: usize) -> usize {
    of_records(raw::compare_records, random, &[20, 20, 20, n - 60])
}

/// The same of a record in one part.
fn of_equivalent_records(random: &mut Random, n: usize) -> usize {
    of_records(raw::equivalent_records, random, &[n])
}

fn of_records(compare: CompareRecords, random: &mut Random, sizes: &[usize]) -> usize {
    let record = random_components(random, sizes);
    let n = record.n();
    let lent = (n as u64, &*record.neighbours, &*record.codes);
    let (mut choice, mut list, mut count) = (vec![0; n], [0; 96], 0);
    depth(|| compare(lent, lent, &mut choice, &mut list, &mut count))
}

/// A call on a record in place.
fn in_place(
    random: &mut Random,
    n: usize,
    call: impl FnOnce(u64, &mut [u64], &mut [u8], &mut u64) -> u8,
) -> usize {
    let (mut neighbours, mut codes, mut used) = used_pairs(random, n);
    depth(|| call(n as u64, &mut neighbours, &mut codes, &mut used))
}

/// The same pairs as below, but the last two vertices are used.
fn used_pairs(random: &mut Random, n: usize) -> (Vec<u64>, Vec<u8>, u64) {
    let (mut neighbours, codes) = pairs(random, n);
    neighbours[n - 2..].fill(0);
    (neighbours, codes, 0b11 << (n - 2))
}

/// A store that holds eight records of 64 qubits, under the names 0 to 7.
fn full_store(random: &mut Random) -> ([u64; 24], Vec<u64>, Vec<u8>) {
    let (mut heads, mut words, mut bytes) = ([0; 24], Vec::new(), Vec::new());
    for name in 0..8 {
        let (neighbours, codes, used) = used_pairs(random, 64);
        heads[3 * name..3 * name + 3].copy_from_slice(&[64, name as u64, used]);
        words.extend(neighbours);
        bytes.extend(codes);
    }
    (heads, words, bytes)
}

/// The same, each place with the vertices of its group alone: four of the lower half, four of the
/// upper.
fn groups_store(random: &mut Random) -> ([u64; 24], Vec<u64>, Vec<u8>) {
    let (mut heads, mut words, mut bytes) = full_store(random);
    for at in 0..512 {
        let (place, q) = (at / 64, at % 64);
        if (place < 4) != (q < 32) {
            (words[at], bytes[at]) = (0, 8);
            heads[3 * place + 2] &= !(1 << q);
        }
    }
    (heads, words, bytes)
}

/// The neighbours and the codes of edges in pairs with Hadamards: the image rule fills its list.
fn pairs(random: &mut Random, n: usize) -> (Vec<u64>, Vec<u8>) {
    let signs = random.word();
    let neighbours = (0..n).map(|q| 1 << (q ^ 1));
    let codes = (0..n).map(|q| 8 + 2 * (signs >> q & 1) as u8);
    (neighbours.collect(), codes.collect())
}

/// How many bytes below this function a call writes. Panics where the call refuses, or comes near
/// the end of the painted room.
#[inline(never)]
fn depth(call: impl FnOnce() -> u8) -> usize {
    let top: usize;
    // SAFETY: the thread's stack has more than ROOM bytes below this frame, and nobody uses them.
    unsafe {
        asm!("mov {}, rsp", out(reg) top, options(nomem, nostack));
        asm!("rep stosb", inout("rdi") top - ROOM => _, inout("rcx") ROOM => _, in("al") PAINT);
    }
    assert_eq!(call(), 0, "the call is accepted");
    let room = (top - ROOM) as *const u8;
    // SAFETY: the same bytes, which are written.
    let changed = (0..ROOM).find(|&k| unsafe { room.add(k).read_volatile() } != PAINT);
    let lowest = changed.expect("a call writes its return address");
    assert!(lowest > ROOM / 8, "the room is too small");
    ROOM - lowest
}

/// The most stack that each call of the table took.
fn measure() -> Vec<usize> {
    let deepest = |(_, n, call): &Measured| {
        let depths = (0..CASES).map(|seed| call(&mut Random::new(seed), *n));
        depths.max().expect("some cases")
    };
    let thread = std::thread::Builder::new().stack_size(2 * ROOM);
    let all = thread.spawn(move || CALLS.iter().map(deepest).collect());
    all.unwrap().join().unwrap()
}

/// A row of the table in docs/SPEED.md.
fn row(name: &str, n: usize) -> String {
    format!("| {name} | {n} | ")
}

fn main() {
    println!("| call | n | stack, bytes |");
    println!("|---|---|---|");
    for ((name, n, _), bytes) in CALLS.iter().zip(measure()) {
        println!("{}{bytes} |", row(name, *n));
    }
}

#[cfg(test)]
mod tests {
    use super::*;

    const SPEED: &str = include_str!("../../../../docs/SPEED.md");

    #[test]
    fn the_document_says_what_each_call_needs_within_a_fifth() {
        for ((name, n, _), bytes) in CALLS.iter().zip(measure()) {
            let row = row(name, *n);
            let said = SPEED.lines().find_map(|line| line.strip_prefix(&row));
            let said = said.unwrap_or_else(|| panic!("no line {row}"));
            let said: usize = said.trim_end_matches(" |").parse().unwrap();
            assert!(
                5 * bytes <= 6 * said && 4 * said <= 5 * bytes,
                "{name} on {n}: {bytes} bytes, docs/SPEED.md says {said}"
            );
        }
    }
}
