//! How often each call gave each number.

use crate::calls::CALLS;
use crate::header::published;
use std::fmt;

/// The numbers of the refusals, and 0.
const NUMBERS: usize = 21;

/// For each call of the table, how often it gave each number.
#[derive(Clone)]
pub struct Counts([[u64; NUMBERS]; CALLS.len()]);

impl Default for Counts {
    fn default() -> Counts {
        Counts([[0; NUMBERS]; CALLS.len()])
    }
}

impl Counts {
    /// Adds a call's answer.
    pub fn add(&mut self, call: usize, number: u8) {
        self.0[call][usize::from(number)] += 1;
    }

    /// The number of all calls.
    pub fn total(&self) -> u64 {
        self.0.iter().flatten().sum()
    }

    /// What the header publishes and was never seen: a call that is not in the table, an
    /// acceptance, a refusal.
    pub fn missing(&self) -> Vec<String> {
        let mut missing = Vec::new();
        for (name, refusals) in published() {
            let Some(k) = CALLS.iter().position(|call| call.name == *name) else {
                missing.push(name.to_string());
                continue;
            };
            let numbers = [0].iter().chain(refusals);
            let unseen = numbers.filter(|&&number| self.0[k][usize::from(number)] == 0);
            missing.extend(unseen.map(|number| format!("{name} with {number}")));
        }
        missing
    }
}

impl fmt::Display for Counts {
    fn fmt(&self, f: &mut fmt::Formatter<'_>) -> fmt::Result {
        let heads = (1..NUMBERS).map(|number| format!("{number:>8}"));
        writeln!(
            f,
            "{:<17}{:>9}{}",
            "call",
            "accepted",
            heads.collect::<String>()
        )?;
        for (call, counts) in CALLS.iter().zip(&self.0) {
            let cells = counts[1..].iter().map(|count| format!("{count:>8}"));
            let cells = cells.collect::<String>();
            writeln!(f, "{:<17}{:>9}{cells}", call.name, counts[0])?;
        }
        Ok(())
    }
}

#[cfg(test)]
mod tests {
    use super::*;

    #[test]
    fn a_number_that_was_never_given_is_missing() {
        let mut counts = Counts::default();
        let all = counts.missing().len();
        counts.add(0, 0);
        assert_eq!(counts.missing().len(), all - 1);
        assert!(!counts
            .missing()
            .contains(&format!("{} with 0", CALLS[0].name)));
        assert!(counts
            .missing()
            .contains(&format!("{} with 2", CALLS[0].name)));
    }

    #[test]
    fn sixteen_is_missed_of_each_call_that_names_a_qubit_and_may_accept_it() {
        let missing = Counts::default().missing();
        let with = missing
            .iter()
            .filter_map(|what| what.strip_suffix(" with 16"));
        let with: Vec<&str> = with.collect();
        let calls = [
            "gate",
            "cz",
            "measure",
            "observe",
            "measure_row",
            "complement",
        ];
        let groups = calls.iter().filter(|call| **call != "measure_row");
        let groups: Vec<String> = groups.map(|call| format!("group_{call}")).collect();
        let due = calls.into_iter().chain(groups.iter().map(String::as_str));
        assert!(with.into_iter().eq(due));
    }
}
