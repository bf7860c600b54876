//! Calls on two generator lists, and on two records.

use crate::arguments::{pair_call, record_pair_call};
use crate::common::local::{complemented, sent};
use crate::common::{PairCall, Random, RecordPairCall};
use sukhlent::{compare as compare_lists, equivalent as equivalent_lists};
use sukhlent::{expand, reduce, Comparison, GeneratorList, Record};

/// The least choice carries the first group onto the second, and the list leads from graph to
/// graph.
pub fn compare(random: &mut Random) -> u8 {
    let call = pair_call(random);
    let answer = call.compare();
    let number = answer.as_ref().err().copied().unwrap_or(0);
    call.assert_due(number);
    if let Ok(comparison) = answer {
        assert_carries(&call, &comparison);
    }
    number
}

/// The same with parts of any size, and the answer of `compare` where that does not give 3.
pub fn equivalent(random: &mut Random) -> u8 {
    let call = pair_call(random);
    let answer = call.equivalent();
    let number = answer.as_ref().err().copied().unwrap_or(0);
    call.assert_due_of_any_size(number);
    let limited = call.compare();
    assert!(limited == Err(3) || limited == answer, "{call:?}");
    if let Ok(comparison) = answer {
        assert_carries(&call, &comparison);
    }
    number
}

/// The answer is that of the comparison of the two expansions.
pub fn compare_records(random: &mut Random) -> u8 {
    let call = record_pair_call(random);
    let answer = call.compare();
    let number = answer.as_ref().err().copied().unwrap_or(0);
    call.assert_due(number);
    if let Ok(comparison) = answer {
        let [first, second] = expansions(&call);
        assert_eq!(compare_lists(&first, &second), Ok(comparison), "{call:?}");
    }
    number
}

/// The same with parts of any size.
pub fn equivalent_records(random: &mut Random) -> u8 {
    let call = record_pair_call(random);
    let answer = call.equivalent();
    let number = answer.as_ref().err().copied().unwrap_or(0);
    call.assert_due_of_any_size(number);
    if let Ok(comparison) = answer {
        let [first, second] = expansions(&call);
        assert_eq!(
            equivalent_lists(&first, &second),
            Ok(comparison),
            "{call:?}"
        );
    }
    number
}

/// The generators of two accepted records.
fn expansions(call: &RecordPairCall) -> [GeneratorList; 2] {
    [&call.first, &call.second].map(|call| {
        expand(&Record {
            used: 0,
            ..call.record()
        })
        .expect("an accepted record")
    })
}

/// The choice carries the one group onto the other, and the list the one reduced graph.
fn assert_carries(call: &PairCall, answer: &Comparison) {
    let [first, second] = [&call.first, &call.second].map(|given| given.list());
    let [from, to] = [&first, &second].map(|list| reduce(list).expect("an accepted list"));
    let led = complemented(&from.neighbours, &answer.complementations);
    assert_eq!(led, to.neighbours, "{call:?}");
    assert_eq!(reduce(&sent(&first, &answer.choice)), Ok(to), "{call:?}");
}
