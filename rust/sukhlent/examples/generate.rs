//! Writes the text of a job that anyone can repeat: generate N COUNT SEED, in decimal.
//! examples/c/generate.c is the same in C.

use std::process::ExitCode;
use std::str::FromStr;
use sukhlent::generate;

fn main() -> ExitCode {
    let words: Vec<String> = std::env::args().skip(1).collect();
    match text(&words) {
        Ok(text) => {
            print!("{text}");
            ExitCode::SUCCESS
        }
        Err((status, message)) => {
            eprintln!("{message}");
            status.into()
        }
    }
}

/// The text that these words ask for; or the status to end with, and what to say.
pub fn text(words: &[String]) -> Result<String, (u8, String)> {
    let [n, count, seed] = words else {
        return Err((2, "usage: generate N COUNT SEED".into()));
    };
    generate(number(n)?, number(count)?, number(seed)?)
        .map_err(|refusal| (1, format!("refused {}", refusal.number())))
}

/// The number that a word is.
fn number<T: FromStr>(word: &str) -> Result<T, (u8, String)> {
    word.parse().map_err(|_| (2, format!("no number: {word}")))
}
