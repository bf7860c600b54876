//! `fuzz SECONDS [CASE]`: runs cases for so long, from the given case on, and prints the counts.
//! The status is 0 where no case failed and every call was accepted and met all its refusals.

use std::process::ExitCode;
use std::time::Duration;

fn main() -> ExitCode {
    let mut arguments = std::env::args().skip(1).map(|word| word.parse::<u64>());
    let seconds = arguments
        .next()
        .unwrap_or(Ok(60))
        .expect("SECONDS is a number");
    let first = arguments.next().unwrap_or(Ok(0)).expect("CASE is a number");
    let time = Duration::from_secs(seconds);
    let counts = match fuzz::run(time, first, |counts| println!("{} calls", counts.total())) {
        Ok(counts) => counts,
        Err(case) => {
            println!("case {case} fails: fuzz 1 {case} shows it alone");
            return ExitCode::FAILURE;
        }
    };
    print!("{counts}");
    let missing = counts.missing();
    missing
        .iter()
        .for_each(|what| println!("never seen: {what}"));
    if missing.is_empty() {
        ExitCode::SUCCESS
    } else {
        ExitCode::FAILURE
    }
}
