//! Records as texts.

use crate::arguments::{read_record_call, size, write_record_call};
use crate::common::record_text::{Places, ReadRecord, PLACES};
use crate::common::{Random, RecordCall};

/// A text is judged as a plain reader judges it, and an accepted one is rewritten unchanged.
pub fn read(random: &mut Random) -> u8 {
    let n = size(random);
    let call = read_record_call(random, n);
    let answer = call.read();
    assert_eq!(answer, call.due(), "{call:?}");
    match answer {
        Ok(record) => {
            let again = RecordCall::with(&record, Places(PLACES)).write();
            assert_eq!(again.map(String::into_bytes), Ok(call.text));
            0
        }
        Err(number) => number,
    }
}

/// A record is written as a plain writer writes it, and read back.
pub fn write(random: &mut Random) -> u8 {
    let n = size(random);
    let call = write_record_call(random, n);
    let answer = call.write();
    assert_eq!(answer, call.write_due(), "{call:?}");
    match answer {
        Ok(text) => {
            let back = ReadRecord::on(text.as_bytes()).read();
            assert_eq!(back, Ok(call.record()), "{text}");
            0
        }
        Err(number) => number,
    }
}
