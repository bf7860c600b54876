//! A source that goes on: a linear cluster on 64 places, grown at one end and measured at the other, by the calls of the
//! engine and by the plain tableau. Prints the least time of a photon, of runs in turns: one renewal, one CZ, one observation.

use random::Draws;
use std::time::Instant;
use sukhlent::{raw, Photon};
use tableau::Tableau;

/// The places, the photons that are alive at a time, those of a run, and the runs of each.
const N: usize = 64;
const ALIVE: usize = 40;
const PHOTONS: usize = 20_000;
const RUNS: usize = 21;

/// What can emit, join and measure photons.
trait Source {
    /// A photon in +X at a used place.
    fn renew(&mut self, q: usize);
    fn cz(&mut self, a: usize, b: usize);
    /// X measured with a bit by lot: the outcome.
    fn observe(&mut self, q: usize, bit: u8) -> u8;
}

/// The engine's record.
struct Engine {
    neighbours: [u64; N],
    codes: [u8; N],
    used: u64,
}

impl Source for Engine {
    fn renew(&mut self, q: usize) {
        let (words, codes) = (&mut self.neighbours, &mut self.codes);
        let photon = Photon::PlusX as u8;
        assert_eq!(
            raw::renew(N as u64, words, codes, &mut self.used, q as u64, photon),
            0
        );
    }

    fn cz(&mut self, a: usize, b: usize) {
        let (words, codes) = (&mut self.neighbours, &mut self.codes);
        assert_eq!(
            raw::cz(N as u64, words, codes, self.used, a as u64, b as u64),
            0
        );
    }

    fn observe(&mut self, q: usize, bit: u8) -> u8 {
        let (words, codes) = (&mut self.neighbours, &mut self.codes);
        let (mut outcome, mut determined) = (0, 0);
        let told = (&mut outcome, &mut determined);
        let q = q as u64;
        let number = raw::observe(
            N as u64,
            words,
            codes,
            &mut self.used,
            1,
            q,
            bit,
            told.0,
            told.1,
        );
        assert_eq!(number, 0);
        outcome
    }
}

impl Source for Tableau {
    /// The place is alone: Z is measured there, X applied where the outcome is minus, then a Hadamard.
    fn renew(&mut self, q: usize) {
        if self.measure(3, q, 0).is_none() {
            self.gate(q, 1);
        }
        self.gate(q, 8);
    }

    fn cz(&mut self, a: usize, b: usize) {
        Tableau::cz(self, a, b);
    }

    fn observe(&mut self, q: usize, bit: u8) -> u8 {
        let first = self.measure(1, q, bit);
        let found = first.or_else(|| self.measure(1, q, 1 - bit));
        found.expect("one of two outcomes").outcome
    }
}

/// The outcomes of a run, as a digest, and its time in nanoseconds.
fn run(source: &mut impl Source) -> (u64, f64) {
    let start = Instant::now();
    let (mut lots, mut digest) = (Draws::new(1), 0_u64);
    for k in 0..PHOTONS + ALIVE {
        if k < PHOTONS {
            if k >= N {
                source.renew(k % N);
            }
            if k > 0 {
                source.cz((k - 1) % N, k % N);
            }
        }
        if k >= ALIVE {
            let lot = lots.next().expect("draws do not end");
            let outcome = source.observe((k - ALIVE) % N, (lot >> 63) as u8);
            digest = digest.rotate_left(1) ^ u64::from(outcome) ^ digest >> 63;
        }
    }
    (digest, start.elapsed().as_nanos() as f64)
}

fn main() {
    let mut least = [f64::INFINITY; 2];
    for _ in 0..RUNS {
        let mut engine = Engine {
            neighbours: [0; N],
            codes: [0; N],
            used: 0,
        };
        let mut tableau = Tableau::zero(N);
        (0..N).for_each(|q| tableau.gate(q, 8));
        let runs = [run(&mut engine), run(&mut tableau)];
        assert_eq!(runs[0].0, runs[1].0, "the same outcomes");
        for (least, (_, time)) in least.iter_mut().zip(runs) {
            *least = least.min(time / PHOTONS as f64);
        }
    }
    let [engine, tableau] = least;
    println!("| engine, a photon | tableau, a photon | ratio |\n|---|---|---|");
    println!(
        "| {engine:.0} ns | {tableau:.0} ns | {:.2} |",
        engine / tableau
    );
}
