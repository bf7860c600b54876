//! Texts of Pauli strings in plain Rust: the form, the letters, then the refusals of the list.

use super::refusals;
use sukhlent::raw::Lent;

/// The list of a text, or the number of the refusal.
pub fn read_strings(text: &[u8], signs: &mut [u8], z: &mut [u64], x: &mut [u64]) -> u8 {
    let n = text.iter().filter(|&&byte| byte == b'\n').count();
    if text.len() as u128 != n as u128 * (n as u128 + 2) || !has_form(text, n) {
        return 1;
    }
    if n == 0 || n > 64 {
        return 2;
    }
    if [signs.len(), z.len(), x.len()] != [n; 3] {
        return 4;
    }
    let (mut own_signs, mut own_z, mut own_x) = ([0; 64], [0; 64], [0; 64]);
    for (j, line) in text.chunks_exact(n + 2).enumerate() {
        own_signs[j] = u8::from(line[0] == b'-');
        let letters = line[1..=n].iter().rev();
        (own_z[j], own_x[j]) = letters.fold((0, 0), |(z, x), letter| {
            let [in_z, in_x] = [matches!(letter, b'Y' | b'Z'), matches!(letter, b'X' | b'Y')];
            (z << 1 | u64::from(in_z), x << 1 | u64::from(in_x))
        });
    }
    let refusal = check((n as u64, &own_signs[..n], &own_z[..n], &own_x[..n]));
    if refusal == 0 {
        signs.copy_from_slice(&own_signs[..n]);
        z.copy_from_slice(&own_z[..n]);
        x.copy_from_slice(&own_x[..n]);
    }
    refusal
}

/// Whether each of n lines is a sign, n letters and a newline.
fn has_form(text: &[u8], n: usize) -> bool {
    text.chunks_exact(n + 2).all(|line| {
        let letters = line[1..=n].iter();
        matches!(line[0], b'+' | b'-')
            && letters.fold(true, |all, l| all & matches!(l, b'I' | b'X' | b'Y' | b'Z'))
            && line[n + 1] == b'\n'
    })
}

/// The text of a list, or the number of the refusal.
pub fn write_strings((n, signs, z, x): Lent, text: &mut [u8]) -> u8 {
    if n == 0 || n > 64 {
        return 2;
    }
    let m = n as usize;
    if text.len() != m * (m + 2) {
        return 4;
    }
    let refusal = check((n, signs, z, x));
    if refusal != 0 {
        return refusal;
    }
    for (j, line) in text.chunks_exact_mut(m + 2).enumerate() {
        line[0] = b"+-"[usize::from(signs[j])];
        for (q, letter) in line[1..=m].iter_mut().enumerate() {
            *letter = b"IXZY"[(2 * (z[j] >> q & 1) + (x[j] >> q & 1)) as usize];
        }
        line[m + 1] = b'\n';
    }
    0
}

/// The number of a list: its refusals, with that of dependent generators.
pub fn check(list: Lent) -> u8 {
    let (_, _, z, x) = list;
    let refusal = refusals::of_list(list, &[]);
    if refusal == 0 && !independent(z, x) {
        return 10;
    }
    refusal
}

/// Whether rows are independent, signs dropped: each in turn is added to the later rows that have
/// its lowest x bit, or its lowest z bit where it has no x bit.
fn independent(z: &[u64], x: &[u64]) -> bool {
    let n = z.len();
    let (mut own_z, mut own_x) = ([0; 64], [0; 64]);
    own_z[..n].copy_from_slice(z);
    own_x[..n].copy_from_slice(x);
    for k in 0..n {
        let (by_z, by_x) = (own_z[k], own_x[k]);
        if by_z | by_x == 0 {
            return false;
        }
        let in_x = by_x != 0;
        let lowest = if in_x { by_x } else { by_z }.trailing_zeros();
        for (z, x) in own_z[k + 1..n].iter_mut().zip(&mut own_x[k + 1..n]) {
            let word = if in_x { *x } else { *z };
            let mask = (word >> lowest & 1).wrapping_neg();
            *z ^= by_z & mask;
            *x ^= by_x & mask;
        }
    }
    true
}
