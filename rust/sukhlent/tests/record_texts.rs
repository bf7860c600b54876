//! Records as texts: every record on two qubits, seeded ones to 64, every single byte changed, and
//! texts of many lines.

use crate::common::record_text::{plain_text, Places, ReadRecord, PLACES};
use crate::common::{random_used_record, Random, RecordCall};
use crate::exhaustive::record;
use sukhlent::{read_record, write_record, Record, Refusal};

/// The record is written as the plain writer writes it, and read back.
fn assert_comes_back(record: &Record) {
    let text = RecordCall::with(record, Places(PLACES)).write();
    assert_eq!(text, Ok(plain_text(record)));
    let text = text.unwrap();
    assert_eq!(ReadRecord::on(text.as_bytes()).read().as_ref(), Ok(record));
    assert_eq!(record.to_string(), text);
    assert_eq!(text.parse().as_ref(), Ok(record));
}

/// The number that reading a text gives.
fn number(text: &str) -> u8 {
    let call = ReadRecord::on(text.as_bytes());
    let answer = call.read();
    assert_eq!(answer, call.due(), "{text:?}");
    answer.err().unwrap_or(0)
}

#[test]
fn every_record_on_two_qubits_comes_back() {
    for edge in 0..2 {
        for m in 0..24 * 24 {
            for used in 0..4 {
                let mut record = record(2, edge, m);
                record.used = used;
                let call = RecordCall::with(&record, Places(PLACES));
                assert_eq!(call.write(), call.write_due(), "{record:?}");
                if call.write_due().is_ok() {
                    assert_comes_back(&record);
                }
            }
        }
    }
}

#[test]
fn seeded_records_on_up_to_64_qubits_come_back() {
    let mut random = Random::new(31);
    for n in 1..=64 {
        for _ in 0..8 {
            assert_comes_back(&random_used_record(&mut random, n));
        }
    }
}

#[test]
fn the_longest_text_fills_the_buffer_but_for_the_short_lines() {
    let codes = vec![23; 64];
    let text = plain_text(&Record {
        neighbours: vec![0; 64],
        codes: codes.clone(),
        used: 0,
    });
    assert_eq!(text.len(), PLACES - 10);
    let neighbours = vec![0; 64];
    let record = Record {
        neighbours,
        codes,
        used: 0,
    };
    assert_comes_back(&record);
}

#[test]
fn every_byte_changed_is_judged_as_a_plain_reader_judges_it() {
    let mut random = Random::new(32);
    for n in [1, 2, 3, 5, 9, 10, 11, 12, 13, 14] {
        let text = plain_text(&random_used_record(&mut random, n)).into_bytes();
        for place in 0..text.len() {
            for byte in 0..=255 {
                let mut changed = text.clone();
                changed[place] = byte;
                let call = ReadRecord::on(&changed);
                assert_eq!(call.read(), call.due(), "{place} {byte}");
            }
        }
        for place in 0..=text.len() {
            let call = ReadRecord::on(&text[..place]);
            assert_eq!(call.read(), call.due(), "{place}");
        }
    }
}

#[test]
fn texts_that_do_not_have_the_form() {
    let names = "qubit code neighbours used\n";
    let line = |line: &str| number(&format!("{names}{line}"));
    assert_eq!((number(""), number("\n"), number(names)), (1, 1, 2));
    assert_eq!(line("0 8 0000000000000000 0\n"), 0);
    for wrong in [
        "0 8 0000000000000000 0",
        "0 8 0000000000000000 0\n\n",
        "0 08 0000000000000000 0\n",
        "0 100 0000000000000000 0\n",
        "0  0000000000000000 0\n",
        "00 8 0000000000000000 0\n",
        "1 8 0000000000000000 0\n",
        "0 8 000000000000000 0\n",
        "0 8 00000000000000000 0\n",
        "0 8 000000000000000A 0\n",
        "0 8 0000000000000000 2\n",
        "0 8 0000000000000000\n",
        "0 8 0000000000000000 0\r\n",
        " 0 8 0000000000000000 0\n",
        "0 @5 0000000000000000 0\n",
    ] {
        assert_eq!(line(wrong), 1, "{wrong:?}");
    }
    assert_eq!(line("0 24 0000000000000000 0\n"), 6);
    assert_eq!(line("0 99 0000000000000000 0\n"), 6);
    assert_eq!(line("0 8 0000000000000002 0\n"), 5);
    assert_eq!(line("0 8 0000000000000001 0\n"), 7);
    assert_eq!(line("0 9 0000000000000000 1\n"), 7);
    assert_eq!(line("0 10 0000000000000000 1\n"), 0);
}

#[test]
fn numbers_of_qubits_are_followed_past_64_and_past_three_digits() {
    for lines in [65, 99, 100, 101, 999, 1000, 1001, 12_345] {
        let mut text = String::from("qubit code neighbours used\n");
        for q in 0..lines {
            text += &format!("{q} 0 0000000000000000 0\n");
        }
        assert_eq!(number(&text), 2, "{lines}");
        let last = format!("{lines} 0 0000000000000000 0\n");
        let other = format!("{} 0 0000000000000000 0\n", lines + 1);
        assert_eq!(number(&format!("{text}{last}")), 2);
        assert_eq!(number(&format!("{text}{other}")), 1);
        assert_eq!(number(&format!("{text}0{last}")), 1);
    }
}

#[test]
fn buffers_of_other_lengths_are_refused() {
    let record = Record::zeros(3);
    for places in [0, 1, 1626, 1628] {
        let call = RecordCall::with(&record, Places(places));
        assert_eq!(call.write(), Err(4));
    }
    for lengths in [[63, 64], [64, 63], [3, 3], [65, 64], [64, 65]] {
        let mut call = ReadRecord::on(plain_text(&record).as_bytes());
        call.lengths = lengths;
        assert_eq!(call.read(), Err(4));
        call.text = b"qubit".to_vec();
        assert_eq!(call.read(), Err(1));
    }
}

#[test]
fn the_safe_functions_answer_refusals() {
    assert_eq!(write_record(&Record::zeros(65)), Err(Refusal::Count));
    assert_eq!(read_record("qubit"), Err(Refusal::Form));
    assert_eq!(Record::zeros(0).to_string(), Refusal::Count.to_string());
}
