//! A long session on 64 qubits: `sessions [calls [seed]]`, with new photons at used places
//! `sessions source [calls [seed]]`, or with measurements of rows `sessions rows [calls [seed]]`.

use std::fmt::Display;
use std::process::ExitCode;
use std::time::Instant;

/// The number of calls between two lines of progress.
const PROGRESS: u64 = 100_000;

fn main() -> ExitCode {
    let mut arguments = std::env::args().skip(1).peekable();
    let renews = arguments.next_if(|a| a == "source").is_some();
    let joins = arguments.next_if(|a| a == "rows").is_some();
    let arguments: Option<Vec<u64>> = arguments.map(|a| a.parse().ok()).collect();
    let (calls, seed) = match arguments.as_deref() {
        Some([]) => (1_000_000, 1),
        Some([calls]) => (*calls, 1),
        Some([calls, seed]) => (*calls, *seed),
        _ => {
            eprintln!("usage: sessions [source|rows] [calls [seed]]");
            return ExitCode::from(2);
        }
    };
    if renews {
        return told(calls, seed, sessions::source(64, seed, calls));
    }
    if joins {
        return told(calls, seed, sessions::rows(64, seed, calls));
    }
    let start = Instant::now();
    let progress = |number: u64, counts: &sessions::Counts| {
        if number.is_multiple_of(PROGRESS) {
            let seconds = start.elapsed().as_secs_f64();
            println!("{number} calls in {seconds:.1} s: {counts}");
        }
    };
    told(calls, seed, sessions::run(64, seed, calls, progress))
}

/// Prints what happened, or the difference.
fn told(calls: u64, seed: u64, ended: Result<impl Display, String>) -> ExitCode {
    match ended {
        Ok(counts) => {
            println!("{calls} calls of seed {seed} without a difference: {counts}");
            ExitCode::SUCCESS
        }
        Err(difference) => {
            eprintln!("{difference}");
            ExitCode::FAILURE
        }
    }
}
