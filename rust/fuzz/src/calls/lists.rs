//! Calls on one generator list.

use crate::arguments::{list_call, product_call, size};
use crate::common::{Random, RecordCall};
use sukhlent::{reduce as reduced, GeneratorList};

/// A check refuses as a reduction with room for its answer does.
pub fn check(random: &mut Random) -> u8 {
    let n = size(random);
    let call = list_call(random, n);
    let number = call.check();
    assert_eq!(number, call.due().0, "{call:?}");
    number
}

/// A reduced record expands to a list that reduces to it.
pub fn reduce(random: &mut Random) -> u8 {
    let n = size(random);
    let call = list_call(random, n);
    let answer = call.reduce();
    assert_eq!(
        answer.as_ref().err(),
        Some(&call.due().1).filter(|&&due| due != 0)
    );
    match answer {
        Ok(record) => {
            let expanded = RecordCall::on(&record).expand();
            let back = expanded.map(|list: GeneratorList| reduced(&list));
            assert_eq!(back, Ok(Ok(record)), "{call:?}");
            0
        }
        Err(number) => number,
    }
}

/// A product is that of the letters.
pub fn product(random: &mut Random) -> u8 {
    let n = size(random);
    let (call, chosen) = product_call(random, n);
    let answer = call.product(chosen);
    assert_eq!(answer, call.product_due(chosen), "{chosen:x}: {call:?}");
    answer.err().unwrap_or(0)
}
