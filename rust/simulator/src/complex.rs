//! Complex numbers.

use std::ops::{Add, Mul, Neg, Sub};

/// Two numbers closer than this count as equal.
pub const TOLERANCE: f64 = 1e-9;

/// A complex number `re + i im`.
#[derive(Clone, Copy, Debug, Default, PartialEq)]
pub struct Complex {
    /// The real part.
    pub re: f64,
    /// The imaginary part.
    pub im: f64,
}

impl Complex {
    /// The number 0.
    pub const ZERO: Complex = Complex::new(0.0, 0.0);
    /// The number 1.
    pub const ONE: Complex = Complex::new(1.0, 0.0);
    /// The imaginary unit.
    pub const I: Complex = Complex::new(0.0, 1.0);

    /// The number `re + i im`.
    pub const fn new(re: f64, im: f64) -> Complex {
        Complex { re, im }
    }

    /// The power `i^k`, where `k` counts modulo 4.
    pub fn i_pow(k: u8) -> Complex {
        match k % 4 {
            0 => Complex::ONE,
            1 => Complex::I,
            2 => -Complex::ONE,
            _ => -Complex::I,
        }
    }

    /// The complex conjugate.
    pub fn conj(self) -> Complex {
        Complex::new(self.re, -self.im)
    }

    /// The squared absolute value.
    pub fn norm_sqr(self) -> f64 {
        self.re * self.re + self.im * self.im
    }

    /// The number times a real factor.
    pub fn scale(self, factor: f64) -> Complex {
        Complex::new(self.re * factor, self.im * factor)
    }

    /// Whether the distance to `other` is below [`TOLERANCE`].
    pub fn approx_eq(self, other: Complex) -> bool {
        (self - other).norm_sqr().sqrt() < TOLERANCE
    }
}

impl Add for Complex {
    type Output = Complex;
    fn add(self, other: Complex) -> Complex {
        Complex::new(self.re + other.re, self.im + other.im)
    }
}

impl Sub for Complex {
    type Output = Complex;
    fn sub(self, other: Complex) -> Complex {
        Complex::new(self.re - other.re, self.im - other.im)
    }
}

impl Mul for Complex {
    type Output = Complex;
    fn mul(self, other: Complex) -> Complex {
        Complex::new(
            self.re * other.re - self.im * other.im,
            self.re * other.im + self.im * other.re,
        )
    }
}

impl Neg for Complex {
    type Output = Complex;
    fn neg(self) -> Complex {
        Complex::new(-self.re, -self.im)
    }
}

#[cfg(test)]
mod tests {
    use super::*;

    #[test]
    fn arithmetic() {
        let a = Complex::new(1.0, 2.0);
        let b = Complex::new(3.0, -5.0);
        assert_eq!(a + b, Complex::new(4.0, -3.0));
        assert_eq!(a - b, Complex::new(-2.0, 7.0));
        assert_eq!(a * b, Complex::new(13.0, 1.0));
        assert_eq!(-a, Complex::new(-1.0, -2.0));
        assert_eq!(a.conj(), Complex::new(1.0, -2.0));
        assert_eq!(a.norm_sqr(), 5.0);
        assert_eq!(a.scale(-2.0), Complex::new(-2.0, -4.0));
    }

    #[test]
    fn powers_of_i_are_repeated_products() {
        let mut power = Complex::ONE;
        for k in 0..9 {
            assert!(Complex::i_pow(k).approx_eq(power), "i^{k}");
            power = power * Complex::I;
        }
        assert_eq!(Complex::I * Complex::I, Complex::new(-1.0, 0.0));
    }

    #[test]
    fn approximate_equality_has_a_bound() {
        let a = Complex::new(1.0, 2.0);
        assert!(a.approx_eq(Complex::new(1.0 + 1e-12, 2.0 - 1e-12)));
        assert!(!a.approx_eq(Complex::new(1.0 + 1e-6, 2.0)));
        assert!(!a.approx_eq(Complex::new(1.0, 2.0 - 1e-6)));
        assert!(!a.approx_eq(Complex::new(f64::NAN, 2.0)));
    }
}
