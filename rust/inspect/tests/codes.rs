//! The 24 codes against matrices generated from H and S.

use inspect::{bits, image, inverse, then};
use simulator::{conjugate, find, letter_matrix, letter_of, one_qubit_cliffords, Matrix2};

/// The letters to which X and Z go, by class: document 01's list, with letters as 2z + x.
const CLASSES: [(u8, u8); 6] = [(1, 2), (3, 2), (2, 1), (1, 3), (3, 1), (2, 3)];

/// The matrix of a code, from the signed letters that its digits name.
fn matrix(code: u8) -> Matrix2 {
    let (x, z) = CLASSES[usize::from(code / 4)];
    find((2 * (code / 2 % 2), x), (2 * (code % 2), z))
}

/// The matrix of a code, from the images of X and Z that the engine answers.
fn answered(code: u8) -> Matrix2 {
    let sent = |letter| {
        let (minus, to) = image(code, letter).expect("a code");
        (2 * u8::from(minus), to)
    };
    find(sent(1), sent(2))
}

#[test]
fn the_codes_are_the_24_cliffords() {
    let all = one_qubit_cliffords();
    assert_eq!(all.len(), 24);
    for u in &all {
        let named: Vec<u8> = (0..24)
            .filter(|&c| answered(c).approx_eq_up_to_phase(u))
            .collect();
        assert_eq!(named.len(), 1, "each Clifford has one code");
        assert!(
            matrix(named[0]).approx_eq_up_to_phase(u),
            "code {}",
            named[0]
        );
    }
}

#[test]
fn hadamard_phase_gate_and_paulis() {
    let paulis = [
        (0, Matrix2::I),
        (1, Matrix2::X),
        (2, Matrix2::Z),
        (3, Matrix2::Y),
    ];
    for (code, u) in paulis.into_iter().chain([(4, Matrix2::S), (8, Matrix2::H)]) {
        assert!(answered(code).approx_eq_up_to_phase(&u), "code {code}");
    }
}

#[test]
fn images_are_conjugations() {
    for code in 0..24 {
        for letter in 0..4 {
            let sent = conjugate(&matrix(code), &letter_matrix(letter));
            let (phase, to) = letter_of(&sent).expect("a signed letter");
            assert_eq!(
                image(code, letter),
                Some((phase == 2, to)),
                "code {code}, letter {letter}"
            );
            assert!(phase == 0 || phase == 2);
        }
    }
}

#[test]
fn composition_is_the_product_of_matrices() {
    for a in 0..24 {
        for b in 0..24 {
            let product = matrix(b) * matrix(a);
            assert!(
                matrix(then(a, b)).approx_eq_up_to_phase(&product),
                "first {a}, then {b}"
            );
        }
    }
}

#[test]
fn inverses_undo() {
    for a in 0..24 {
        assert!(
            matrix(inverse(a)).approx_eq_up_to_phase(&matrix(a).dagger()),
            "inverse of {a}"
        );
    }
}

#[test]
fn c_and_d_are_the_x_bits_of_images() {
    for a in 0..24 {
        let x_bit = |letter| image(a, letter).unwrap().1 & 1 != 0;
        assert_eq!(bits(a), Some((x_bit(2), x_bit(1))), "code {a}");
    }
}

#[test]
fn numbers_above_23_are_no_codes() {
    for a in 24..=255 {
        assert_eq!(inverse(a), 24);
        assert_eq!((then(a, 0), then(0, a)), (24, 24));
        assert_eq!(image(a, 1), None);
        assert_eq!(bits(a), None);
    }
}

#[test]
fn examples_of_document_01() {
    assert_eq!(
        (then(8, 8), then(4, 4), then(8, 4), then(4, 8), inverse(12)),
        (0, 2, 20, 18, 13)
    );
}
