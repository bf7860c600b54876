//! The state of a session a few calls ago, compared with the state that it has now.

use crate::common::local::sent;
use crate::common::reference::expanded;
use crate::session::{reduced, same};
use sukhlent::{equivalent_records, Record, Refusal};

/// The calls between two marks.
pub const APART: usize = 8;

/// A record that the session had, and whether all calls since then keep the state up to local
/// Cliffords.
pub struct Mark {
    pub record: Record,
    pub local: bool,
}

impl Mark {
    /// A mark at a record.
    pub fn at(record: &Record) -> Mark {
        Mark {
            record: record.clone(),
            local: true,
        }
    }

    /// Compares the marked state with another, by the call for parts of any size: whether they are
    /// equivalent. A choice carries the one onto the other, and there is one where all calls were
    /// local.
    pub fn compared(&self, now: &Record) -> Result<bool, String> {
        match equivalent_records(&self.record, now) {
            Ok(answer) => {
                let carried = reduced(&sent(&expanded(&self.record), &answer.choice));
                let due = reduced(&expanded(now));
                same("the state that the choice leads to", carried, due).map(|()| true)
            }
            Err(Refusal::Inequivalent) if !self.local => Ok(false),
            Err(refusal) => Err(format!("{refusal}, from {:?}", self.record)),
        }
    }
}

#[cfg(test)]
mod tests {
    use super::*;

    #[test]
    fn a_state_that_is_not_equivalent_is_a_difference_after_local_calls_alone() {
        let mut path = Record::graph(30, &[(0, 1), (1, 2)]).unwrap();
        let mut mark = Mark::at(&path);
        assert_eq!(mark.compared(&path), Ok(true));
        path.codes[7] = 13;
        assert_eq!(mark.compared(&path), Ok(true));
        sukhlent::cz(&mut path, 4, 5).unwrap();
        assert!(mark.compared(&path).is_err());
        mark.local = false;
        assert_eq!(mark.compared(&path), Ok(false));
    }
}
