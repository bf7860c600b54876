//! Amplitudes, from a state vector and by elements of the group.

use simulator::{Complex, State, TOLERANCE};
use sukhlent::Product;

/// The bits of a real part, an imaginary part and a probability.
pub type Bits = [u64; 3];

/// The line of the plot at every word of a state, from its vector: each value over that at the
/// smallest word that is not 0, and one over the number of such words.
pub fn plot_lines(state: &State) -> Vec<Bits> {
    let values = state.amplitudes();
    let is_zero = |value: &Complex| value.norm_sqr().sqrt() < TOLERANCE;
    let some: Vec<&Complex> = values.iter().filter(|value| !is_zero(value)).collect();
    let (first, count) = (*some[0], some.len());
    assert!(count.is_power_of_two(), "{count} words");
    let inverse = first.conj().scale(1.0 / first.norm_sqr());
    let line = |value: &Complex| match is_zero(value) {
        true => [0.0, 0.0, 0.0],
        false => {
            let ratio = *value * inverse;
            let mut powers = (0..4).map(Complex::i_pow);
            let power = powers.rfind(|power| power.approx_eq(ratio));
            let power = power.expect("a power of i");
            [power.re + 0.0, power.im + 0.0, 1.0 / count as f64]
        }
    };
    let lines = values.iter().map(line);
    lines.map(|line| line.map(f64::to_bits)).collect()
}

/// The power of i that an element of the group gives the word y, which it sends to y with its x bits
/// flipped: Z|1> = -|1>, Y|0> = i|1>, Y|1> = -i|0>.
pub fn turns(element: &Product, y: u64) -> u8 {
    let Product { phase, z, x } = *element;
    let ones = |word: u64| word.count_ones();
    let letters = 2 * ones(z & !x & y) + ones(z & x & !y) + 3 * ones(z & x & y);
    ((u32::from(phase) + letters) % 4) as u8
}
