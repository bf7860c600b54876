//! Texts of Pauli strings.

use crate::arguments::{list_call, read_call, size, text_places};
use crate::common::{ListCall, Random, ReadCall};

/// A text is judged as a plain reader judges it, and an accepted one is rewritten unchanged.
pub fn read(random: &mut Random) -> u8 {
    let n = size(random);
    let call = read_call(random, n);
    let answer = call.read();
    assert_eq!(answer, call.due(), "{call:?}");
    match answer {
        Ok(list) => {
            let list = ListCall::on(&list);
            let again = list.write_strings(list.text_places());
            assert_eq!(again.map(String::into_bytes), Ok(call.text));
            0
        }
        Err(number) => number,
    }
}

/// A list is written as a plain writer writes it, and read back.
pub fn write(random: &mut Random) -> u8 {
    let n = size(random);
    let call = list_call(random, n);
    let places = text_places(random, &call);
    let answer = call.write_strings(places);
    assert_eq!(answer, call.write_due(places), "{places}: {call:?}");
    match answer {
        Ok(text) => {
            let back = ReadCall::on(text.as_bytes()).read();
            assert_eq!(back, Ok(call.list()), "{text}");
            0
        }
        Err(number) => number,
    }
}
