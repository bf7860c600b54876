//! Times of the engine's calls beside plain Rust, and of some beside others, as two tables.

use bench::calls::{
    amplitude, compare, compare_records, generate, graphs, group_stores, groups, image, in_place,
    orbit, parity, product, reduce, stores, strings, values, Line,
};

/// Sizes of components of the pairs of records, and what they are called.
const RECORDS: [(&[usize], &str); 2] = [
    (&[20], "equivalent pairs, reduced, one component"),
    (
        &[20, 20, 20, 4],
        "equivalent pairs, reduced, components of 20, 20, 20, 4",
    ),
];
/// The same, with the name of what is beside them.
const BESIDE_LISTS: [(&[usize], &str); 2] = [
    (
        &[20],
        "equivalent pairs, reduced, one component; expand, expand, compare",
    ),
    (
        &[20, 20, 20, 4],
        "equivalent pairs, reduced, components of 20, 20, 20, 4; expand, expand, compare",
    ),
];

fn main() {
    println!("{}", Line::HEAD);
    for n in [8, 16, 32, 64] {
        println!("{}", reduce::line(n));
    }
    for kind in in_place::KINDS {
        println!("{}", in_place::line(kind));
    }
    for n in [16, 64] {
        println!("{}", image::line(n));
    }
    for n in [10, 20] {
        println!("{}", compare::line(n, true));
        println!("{}", compare::line(n, false));
    }
    for (sizes, name) in [
        (&[1; 64][..], "equivalent pairs, 64 components of one"),
        (&[2; 32], "equivalent pairs, 32 components of two"),
        (
            &[20, 20, 20, 4],
            "equivalent pairs, components of 20, 20, 20, 4",
        ),
    ] {
        println!("{}", compare::components(sizes, name));
    }
    for (sizes, name) in RECORDS {
        println!("{}", compare_records::line(sizes, name));
    }
    println!("{}", strings::checking(64));
    for n in [8, 64] {
        println!("{}", strings::reading(n));
        println!("{}", strings::reading_alone(n));
        println!("{}", strings::writing(n));
    }
    println!("{}", orbit::line());
    println!("{}", graphs::complementing(64));
    println!("{}", graphs::cutting(64));
    println!("{}", product::line(64));
    println!("{}", generate::line(64));
    println!("{}", values::expanding(64));
    println!("{}", values::expectation(64));
    println!("{}", parity::measure_row(64));
    for n in [8, 64] {
        println!("{}", amplitude::line(n));
    }
    println!("{}", stores::saving(64));
    println!("{}", stores::returning(64));
    println!("{}", stores::forgetting(64));
    println!("\n{}", Line::BESIDE);
    for kind in groups::KINDS {
        println!("{}", groups::line(kind));
    }
    for line in group_stores::lines() {
        println!("{line}");
    }
    for (sizes, name) in BESIDE_LISTS {
        println!("{}", compare_records::beside_lists(sizes, name));
    }
}
