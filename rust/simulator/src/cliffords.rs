//! The Clifford group on one qubit, up to global phase.

use crate::matrix::{conjugate, letter_of, Matrix2};

/// A pair (phase, letter): phase 0 is plus and 2 is minus; letter 1 is X, 2 Z, 3 Y.
pub type SignedLetter = (u8, u8);

/// All products of H and S up to global phase, the identity first.
pub fn one_qubit_cliffords() -> Vec<Matrix2> {
    let mut found = vec![Matrix2::I];
    let mut next = 0;
    while next < found.len() {
        for generator in [Matrix2::H, Matrix2::S] {
            let product = generator * found[next];
            if !found.iter().any(|u| u.approx_eq_up_to_phase(&product)) {
                found.push(product);
                assert!(found.len() <= 24, "more than 24 one-qubit Cliffords");
            }
        }
        next += 1;
    }
    found
}

/// The signed letters `u X u†` and `u Z u†`. Panics if `u` is no Clifford.
pub fn images(u: &Matrix2) -> (SignedLetter, SignedLetter) {
    let image = |p: &Matrix2| match letter_of(&conjugate(u, p)) {
        Some((phase, letter)) if letter != 0 && phase % 2 == 0 => (phase, letter),
        _ => panic!("not a one-qubit Clifford: {u:?}"),
    };
    (image(&Matrix2::X), image(&Matrix2::Z))
}

/// The Clifford taking X and Z to the given images, up to global phase. Panics if there is none.
pub fn find(x_image: SignedLetter, z_image: SignedLetter) -> Matrix2 {
    one_qubit_cliffords()
        .into_iter()
        .find(|u| images(u) == (x_image, z_image))
        .unwrap_or_else(|| panic!("no Clifford takes X to {x_image:?} and Z to {z_image:?}"))
}

#[cfg(test)]
mod tests {
    use super::*;
    use crate::complex::Complex;

    fn contains(group: &[Matrix2], m: &Matrix2) -> bool {
        group.iter().any(|u| u.approx_eq_up_to_phase(m))
    }

    #[test]
    fn there_are_24_different_unitaries() {
        let group = one_qubit_cliffords();
        assert_eq!(group.len(), 24);
        for (k, u) in group.iter().enumerate() {
            assert!(u.is_unitary());
            assert!(!contains(&group[..k], u));
        }
    }

    #[test]
    fn closed_under_product_and_inverse() {
        let group = one_qubit_cliffords();
        for a in &group {
            assert!(contains(&group, &a.dagger()));
            for b in &group {
                assert!(contains(&group, &(*a * *b)));
            }
        }
    }

    #[test]
    fn contains_the_paulis_but_not_the_eighth_turn() {
        let group = one_qubit_cliffords();
        for p in [Matrix2::X, Matrix2::Y, Matrix2::Z] {
            assert!(contains(&group, &p));
        }
        assert!(!contains(&group, &eighth_turn()));
    }

    #[test]
    fn known_images() {
        assert_eq!(images(&Matrix2::I), ((0, 1), (0, 2)));
        assert_eq!(images(&Matrix2::H), ((0, 2), (0, 1)));
        assert_eq!(images(&Matrix2::S), ((0, 3), (0, 2)));
        assert_eq!(images(&Matrix2::S.dagger()), ((2, 3), (0, 2)));
        assert_eq!(images(&Matrix2::X), ((0, 1), (2, 2)));
        assert_eq!(images(&Matrix2::Y), ((2, 1), (2, 2)));
        assert_eq!(images(&Matrix2::Z), ((2, 1), (0, 2)));
        // S H takes X to S Z S† = Z and Z to S X S† = Y.
        assert_eq!(images(&(Matrix2::S * Matrix2::H)), ((0, 2), (0, 3)));
        // H S takes X to H Y H = -Y and Z to H Z H = X.
        assert_eq!(images(&(Matrix2::H * Matrix2::S)), ((2, 3), (0, 1)));
    }

    #[test]
    fn every_pair_of_different_signed_letters_has_its_clifford() {
        let mut seen: Vec<Matrix2> = Vec::new();
        for x in 1..4 {
            for z in (1..4).filter(|&z| z != x) {
                for (x_phase, z_phase) in [(0, 0), (0, 2), (2, 0), (2, 2)] {
                    let u = find((x_phase, x), (z_phase, z));
                    assert_eq!(images(&u), ((x_phase, x), (z_phase, z)));
                    assert!(!contains(&seen, &u));
                    seen.push(u);
                }
            }
        }
        assert_eq!(seen.len(), 24);
        assert!(find((0, 2), (0, 1)).approx_eq_up_to_phase(&Matrix2::H));
    }

    #[test]
    #[should_panic(expected = "no Clifford takes")]
    fn equal_letters_have_no_clifford() {
        find((0, 1), (2, 1));
    }

    #[test]
    #[should_panic(expected = "not a one-qubit Clifford")]
    fn the_eighth_turn_has_no_images() {
        images(&eighth_turn());
    }

    fn eighth_turn() -> Matrix2 {
        let r = std::f64::consts::FRAC_1_SQRT_2;
        let mut t = Matrix2::I;
        t.0[1][1] = Complex::new(r, r);
        t
    }
}
