//! Products and commutation of rows against products of matrices.

use inspect::{clashes, phase};
use simulator::{row_matrix, Row};

/// Every pair of rows on n qubits.
fn pairs(n: u32) -> impl Iterator<Item = (u64, u64, u64, u64)> {
    let words = 1u64 << n;
    (0..words.pow(4)).map(move |k| {
        (
            k % words,
            k / words % words,
            k / words.pow(2) % words,
            k / words.pow(3),
        )
    })
}

#[test]
fn products_are_products_of_matrices() {
    for n in 1..=3 {
        for (z, x, z2, x2) in pairs(n) {
            let n = n as usize;
            let product =
                row_matrix(n, &Row::new(0, z, x)).product(&row_matrix(n, &Row::new(0, z2, x2)));
            let answer = Row::new(phase(z, x, z2, x2) as u8, z ^ z2, x ^ x2);
            assert!(
                row_matrix(n, &answer).approx_eq(&product),
                "{z} {x} times {z2} {x2}"
            );
        }
    }
}

#[test]
fn commutation_is_that_of_matrices() {
    for n in 1..=3 {
        for (z, x, z2, x2) in pairs(n) {
            let n = n as usize;
            let (a, b) = (
                row_matrix(n, &Row::new(0, z, x)),
                row_matrix(n, &Row::new(0, z2, x2)),
            );
            assert_eq!(
                clashes(z, x, z2, x2),
                !a.product(&b).approx_eq(&b.product(&a)),
                "{z} {x} and {z2} {x2}"
            );
        }
    }
}

#[test]
fn the_last_qubit_counts() {
    let top = 1 << 63;
    assert_eq!(
        (
            phase(0, top, top, top),
            phase(top, top, top, 0),
            phase(top, 0, 0, top)
        ),
        (1, 1, 1)
    );
    assert!(clashes(top, 0, 0, top));
    assert!(!clashes(top | 1, 0, 0, top | 1));
}
