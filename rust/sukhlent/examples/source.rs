//! A source that goes on: photons are emitted one after the other, each joined to the one before it,
//! and measured at the other end of the cluster; a measured photon's place is renewed for the next.
//! examples/c/source.c is the same in C.

use std::error::Error;
use std::fmt::Write;
use sukhlent::{cz, observe, Pauli, Photon, Record, Refusal};

/// The places, and the photons that are alive at a time.
const N: usize = 64;
const ALIVE: usize = 40;

fn main() -> Result<(), Box<dyn Error>> {
    let asked = std::env::args().nth(1);
    let photons = asked.map_or(Ok(1_000_001), |count| count.parse())?;
    let mut text = String::new();
    source(photons, &mut text)?;
    print!("{text}");
    Ok(())
}

/// Writes what a source of so many photons gives.
pub fn source(photons: usize, out: &mut impl Write) -> Result<(), Box<dyn Error>> {
    let mut record = Record::graph(N, &[])?;
    let mut lot = Lot(1);
    let (mut measured, mut minus, mut found) = (0, 0, 0);
    let (mut parity, mut outcome) = (0, 0);
    for k in 0.. {
        if k < photons {
            emit(&mut record, k)?;
        }
        if k + 1 < ALIVE {
            continue;
        }
        let answer = observe(&mut record, Pauli::X, measured % N, lot.bit())?;
        outcome = answer.outcome;
        minus += u64::from(outcome);
        found += u64::from(answer.determined);
        measured += 1;
        if measured == photons {
            break;
        }
        parity ^= outcome * (measured % 2) as u8; // of photon 0, 2, 4 ..
    }
    writeln!(out, "{measured} photons emitted and measured on {N} places")?;
    writeln!(out, "{minus} outcomes minus, {found} determined")?;
    writeln!(
        out,
        "the last is {outcome}, and the parity before it {parity}"
    )?;
    Ok(())
}

/// Puts photon k at its place, in +X, and joins it to the one before it.
fn emit(record: &mut Record, k: usize) -> Result<(), Refusal> {
    if k >= N {
        record.renew(k % N, Photon::PlusX)?;
    }
    if k > 0 {
        cz(record, (k - 1) % N, k % N)?;
    }
    Ok(())
}

/// Bits by lot.
struct Lot(u64);

impl Lot {
    fn bit(&mut self) -> u8 {
        self.0 ^= self.0 << 13;
        self.0 ^= self.0 >> 7;
        self.0 ^= self.0 << 17;
        (self.0 >> 63) as u8
    }
}
