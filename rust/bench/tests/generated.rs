//! Drawn jobs in plain Rust are as the engine's, texts and refusals.

use bench::calls::generate::Generate;
use bench::drawn;
use sukhlent::raw;

/// The number that both generators give; they leave the same in a text of so many places.
fn generated(n: u64, count: u64, seed: u64, places: usize) -> u8 {
    let [engine, plain] = [raw::generate as Generate, drawn::generate].map(|call| {
        let (mut text, mut length) = (vec![77; places], 77);
        (call(n, count, seed, &mut text, &mut length), text, length)
    });
    assert!(engine == plain, "{n}, {count}, {seed}, {places}");
    engine.0
}

#[test]
fn drawn_jobs_and_refusals() {
    for (n, seed) in (1..=64).flat_map(|n| [(n, n), (n, u64::MAX / n)]) {
        assert_eq!(generated(n, 99 * (n % 42), seed, raw::JOB_PLACES), 0);
    }
    let due = [15, 2, 2, 4, 6, 15, 2, 4];
    let numbers = [
        generated(64, 4097, 1, raw::JOB_PLACES),
        generated(65, 4096, 1, raw::JOB_PLACES),
        generated(0, 1, 1, raw::JOB_PLACES),
        generated(64, 1, 1, raw::JOB_PLACES - 1),
        generated(64, 1, 0, raw::JOB_PLACES),
        generated(0, 4097, 0, 0),
        generated(65, 0, 0, 0),
        generated(1, 0, 0, 0),
    ];
    assert_eq!(numbers, due);
}
