//! The measurement of a Pauli row.

use crate::arguments::{row_call, size};
use crate::common::reference::{expanded, reduced, row_value};
use crate::common::{Random, RecordCall};
use sukhlent::Record;

/// The answer is the value of the row before, or the bit; afterwards it is the row's value, and the record is reduced.
pub fn measure_row(random: &mut Random) -> u8 {
    let n = size(random);
    let call = row_call(random, n);
    let answer = call.measure_row();
    let number = answer.as_ref().err().copied().unwrap_or(0);
    assert_eq!(number, call.due_row(), "{call:?}");
    if let Ok((after, found)) = answer {
        let before = row_value(&call.record(), call.with.z, call.with.x);
        assert_eq!(found.determined, before < 2, "{call:?}");
        let due = if before < 2 { before } else { call.with.bit };
        assert_eq!(found.outcome, due, "{call:?}");
        let value = RecordCall::row_of(&after, call.with.z, call.with.x).expectation();
        assert_eq!(value, Ok(due), "{call:?}");
        let list = expanded(&after);
        let due = Record {
            used: after.used,
            ..reduced(&list)
        };
        assert_eq!(after, due, "{call:?}");
    }
    number
}
