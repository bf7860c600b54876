//! Products of rows: matrices on few qubits, a plain product letter by letter on up to 64, and rows
//! that commute.

use crate::common::vectors::signed_rows;
use crate::common::{list, parsed, random_rows, reference, ListCall, Random};
use simulator::{row_matrix, Matrix, Row};
use sukhlent::{product, GeneratorList, Product};

/// The words that choose rows of a list of n.
fn words(n: usize) -> std::ops::Range<u64> {
    0..1 << n
}

/// A list of n rows with any letters and signs.
fn any_rows(random: &mut Random, n: usize) -> GeneratorList {
    let mut words = || (0..n).map(|_| random.word() >> (64 - n)).collect();
    let (z, x) = (words(), words());
    let signs = (0..n).map(|_| random.below(2) as u8).collect();
    GeneratorList { signs, z, x }
}

/// The row of an answer.
fn row(product: Product) -> Row {
    Row::new(product.phase, product.z, product.x)
}

/// The answer to every word is the product of the rows' matrices.
fn assert_multiplied(list: &GeneratorList) {
    let n = list.n();
    let rows = signed_rows(list);
    for chosen in words(n) {
        let taken = (0..n).filter(|j| chosen >> j & 1 == 1);
        let due = taken.fold(Matrix::identity(n), |product, j| {
            product.product(&row_matrix(n, &rows[j]))
        });
        let answer = row(product(list, chosen).unwrap());
        assert!(
            row_matrix(n, &answer).approx_eq(&due),
            "{list:?}, {chosen:b}: {answer:?}"
        );
    }
}

#[test]
fn products_of_two_letters() {
    // XY = iZ, YZ = iX, ZX = iY; reversed order gives -i.
    let letters = |texts: &[&str]| row(product(&parsed(texts), 0b11).unwrap());
    let turned = |phase: u8, text: &str| Row {
        phase,
        ..Row::parse(text)
    };
    assert_eq!(letters(&["XI", "YI"]), turned(1, "ZI"));
    assert_eq!(letters(&["YI", "ZI"]), turned(1, "XI"));
    assert_eq!(letters(&["ZI", "XI"]), turned(1, "YI"));
    assert_eq!(letters(&["YI", "XI"]), turned(3, "ZI"));
    assert_eq!(letters(&["IX", "-IZ"]), turned(1, "IY"));
    assert_eq!(letters(&["-XI", "-IZ"]), turned(0, "XZ"));
    assert_eq!(letters(&["-XX", "-ZZ"]), turned(2, "YY"));
    assert_eq!(letters(&["-YY", "YY"]), turned(2, "II"));
}

#[test]
fn the_empty_word_gives_the_identity_and_one_row_itself() {
    for n in 1..=64 {
        let rows = any_rows(&mut Random::new(n as u64), n);
        let (phase, z, x) = (0, 0, 0);
        assert_eq!(product(&rows, 0), Ok(Product { phase, z, x }));
        for j in 0..n {
            let answer = product(&rows, 1 << j).unwrap();
            assert_eq!(row(answer), signed_rows(&rows)[j], "row {j}");
        }
    }
}

#[test]
fn all_lists_on_one_and_two_qubits_against_matrices() {
    // A row as its sign, its z bits and its x bits.
    let row = |n: usize, k: u64| (k >> (2 * n), k >> n & ((1 << n) - 1), k & ((1 << n) - 1));
    let of = |rows: &[(u64, u64, u64)]| GeneratorList {
        signs: rows.iter().map(|row| row.0 as u8).collect(),
        z: rows.iter().map(|row| row.1).collect(),
        x: rows.iter().map(|row| row.2).collect(),
    };
    (0..8).for_each(|k| assert_multiplied(&of(&[row(1, k)])));
    for (a, b) in (0..32).flat_map(|a| (0..32).map(move |b| (a, b))) {
        assert_multiplied(&of(&[row(2, a), row(2, b)]));
    }
}

#[test]
fn lists_on_three_qubits_against_matrices() {
    for seed in 0..1000 {
        assert_multiplied(&any_rows(&mut Random::new(80_000 + seed), 3));
    }
}

#[test]
fn lists_on_up_to_64_qubits_letter_by_letter() {
    let mut phases = [0; 4];
    for seed in 0..2000 {
        let mut random = Random::new(81_000 + seed);
        let n = 1 + random.below(64);
        let rows = any_rows(&mut random, n);
        let chosen = random.word() >> (64 - n);
        let answer = ListCall::on(&rows).product(chosen);
        assert_eq!(
            answer,
            Ok(reference::product(&rows, chosen)),
            "seed {seed}, {chosen:b}"
        );
        assert_eq!(product(&rows, chosen).ok(), answer.ok());
        phases[usize::from(answer.unwrap().phase)] += 1;
    }
    assert!(phases.iter().all(|&count| count > 300), "{phases:?}");
}

#[test]
fn rows_that_commute_multiply_to_a_sign_in_any_order() {
    for seed in 0..300 {
        let mut random = Random::new(82_000 + seed);
        let n = 1 + random.below(64);
        let mut rows = random_rows(&mut random, n);
        let forward = product(&list(&rows), u64::MAX >> (64 - n)).unwrap();
        assert_eq!(forward.phase % 2, 0, "seed {seed}");
        rows.reverse();
        let back = product(&list(&rows), u64::MAX >> (64 - n)).unwrap();
        assert_eq!(forward, back, "seed {seed}");
    }
}

#[test]
fn two_rows_exchanged_differ_by_a_sign_where_they_do_not_commute() {
    let mut counts = [0; 2];
    for seed in 0..500 {
        let mut random = Random::new(83_000 + seed);
        let n = 2 + random.below(63);
        let rows = any_rows(&mut random, n);
        let mut exchanged = rows.clone();
        exchanged.signs.swap(0, 1);
        exchanged.z.swap(0, 1);
        exchanged.x.swap(0, 1);
        let [a, b] = [&rows, &exchanged].map(|rows| product(rows, 0b11).unwrap());
        let clash = (rows.z[0] & rows.x[1]).count_ones() + (rows.x[0] & rows.z[1]).count_ones();
        let turns = 2 * (clash % 2) as u8;
        assert_eq!((a.z, a.x), (b.z, b.x), "seed {seed}");
        assert_eq!((a.phase + turns) % 4, b.phase, "seed {seed}");
        // Two rows that commute have a real product, others an imaginary one.
        assert_eq!(a.phase % 2, (clash % 2) as u8, "seed {seed}");
        counts[(clash % 2) as usize] += 1;
    }
    assert!(counts.iter().all(|&count| count > 100), "{counts:?}");
}
