//! The timed calls: seeded cases, both answers compared, and the line of the table.

pub mod amplitude;
pub mod compare;
pub mod compare_records;
pub mod generate;
pub mod graphs;
pub mod group_stores;
pub mod groups;
pub mod image;
pub mod in_place;
pub mod orbit;
pub mod parity;
pub mod product;
pub mod reduce;
pub mod stores;
pub mod strings;
pub mod values;

use crate::timing::{medians, Work};
use std::fmt;

/// A line of the table.
pub struct Line {
    call: &'static str,
    n: usize,
    cases: &'static str,
    /// Times in nanoseconds.
    engine: f64,
    plain: f64,
}

impl Line {
    /// The names of the columns.
    pub const HEAD: &'static str = "| call | n | run on | engine | plain Rust | ratio |\n\
                                    |---|---|---|---|---|---|";

    /// Those of the table that sets calls beside other calls of the engine, which are named.
    pub const BESIDE: &'static str =
        "| call | n | run on; beside it | the call | beside it | ratio |\n\
                                      |---|---|---|---|---|---|";

    /// The times of a call over some cases, so many at once, by the engine and by what stands beside it.
    fn measured<C>(
        (call, n, name): (&'static str, usize, &'static str),
        cases: &[C],
        at_once: usize,
        works: [Work<C>; 2],
    ) -> Line {
        let [engine, plain] = medians(cases, at_once, works);
        Line {
            call,
            n,
            cases: name,
            engine,
            plain,
        }
    }
}

impl fmt::Display for Line {
    fn fmt(&self, f: &mut fmt::Formatter<'_>) -> fmt::Result {
        let [engine, plain] = [self.engine, self.plain].map(micros);
        let ratio = digits(self.engine / self.plain);
        let (call, n, cases) = (self.call, self.n, self.cases);
        write!(
            f,
            "| {call} | {n} | {cases} | {engine} | {plain} | {ratio} |"
        )
    }
}

fn micros(nanoseconds: f64) -> String {
    format!("{} µs", digits(nanoseconds / 1000.0))
}

/// A number with about three digits.
fn digits(number: f64) -> String {
    let places = match number {
        ..9.995 => 2,
        ..99.95 => 1,
        _ => 0,
    };
    format!("{number:.places$}")
}
