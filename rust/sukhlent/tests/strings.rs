//! Texts of Pauli strings: the request's texts, every list on few qubits, seeded ones to 64, and
//! every single byte changed.

use crate::common::reference::strings_text;
use crate::common::strings::ReadCall;
use crate::common::{list, random_rows, ListCall, Random};
use crate::exhaustive::lists;
use sukhlent::{read_strings, reduce, write_strings, GeneratorList, Refusal};

/// A seeded list on n qubits.
fn seeded(seed: u64, n: usize) -> GeneratorList {
    list(&random_rows(&mut Random::new(seed), n))
}

/// The number that reading a text gives.
fn number(text: &str) -> u8 {
    let call = ReadCall::on(text.as_bytes());
    let answer = call.read();
    assert_eq!(answer, call.due(), "{text:?}");
    answer.err().unwrap_or(0)
}

/// The list is written as the plain writer writes it, and read back.
fn assert_comes_back(list: &GeneratorList) {
    let call = ListCall::on(list);
    let text = call.write_strings(call.text_places());
    assert_eq!(text, Ok(strings_text(list)));
    let text = text.unwrap();
    assert_eq!(ReadCall::on(text.as_bytes()).read().as_ref(), Ok(list));
}

#[test]
fn the_texts_of_the_request() {
    assert_eq!(number(""), 2);
    for text in [
        "\n", "+\n", "+X", "+XX\n-ZZ", "X\n", "++\n", "+X\n\n", "+X\n-Z\n",
    ] {
        assert_eq!(number(text), 1, "{text:?}");
    }
    for text in [
        "+x\n",
        "+X\r\n",
        " +X\n",
        "+X \n",
        "\u{2212}X\n",
        "+XX\n+Z\n+ZZ\n",
    ] {
        assert_eq!(number(text), 1, "{text:?}");
    }
    assert_eq!((number("+I\n"), number("+XX\n-XX\n")), (10, 10));
    assert_eq!((number("+XI\n+ZI\n"), number("+XX\n-ZZ\n")), (9, 0));
}

#[test]
fn the_leftmost_letter_is_qubit_0() {
    let list = GeneratorList {
        signs: vec![0, 1, 0],
        z: vec![0b000, 0b010, 0b100],
        x: vec![0b001, 0b010, 0b000],
    };
    assert_eq!(read_strings("+XII\n-IYI\n+IIZ\n").as_ref(), Ok(&list));
    assert_comes_back(&list);
}

#[test]
fn every_list_on_one_and_two_qubits_comes_back() {
    let mut accepted = 0;
    for list in (1..=2).flat_map(lists) {
        let call = ListCall::on(&list);
        let places = call.text_places();
        let answer = call.write_strings(places);
        assert_eq!(answer, call.write_due(places), "{list:?}");
        let read = ReadCall::on(strings_text(&list).as_bytes());
        assert_eq!(read.read(), read.due(), "{list:?}");
        assert_eq!(read.read().err(), answer.as_ref().err().copied());
        if answer.is_ok() {
            assert_comes_back(&list);
            accepted += 1;
        }
    }
    // Six lists on one qubit; 60 states on two qubits, each with six lists.
    assert_eq!(accepted, 6 + 60 * 6);
}

#[test]
fn seeded_lists_on_up_to_64_qubits_come_back() {
    for n in 1..=64 {
        (0..10).for_each(|seed| assert_comes_back(&seeded(64 * seed + n, n as usize)));
    }
}

#[test]
fn the_list_is_parsed_and_displayed() {
    for n in [1, 2, 5, 20, 64] {
        let list = seeded(7, n);
        let text = list.to_string();
        assert_eq!(text.parse::<GeneratorList>(), Ok(list.clone()));
        assert_eq!(
            (read_strings(&text), write_strings(&list)),
            (Ok(list), Ok(text))
        );
    }
    let bell: GeneratorList = "+XX\n-ZZ\n".parse().unwrap();
    assert_eq!(reduce(&bell).unwrap().codes, [0, 10]);
    assert_eq!("+XX\n-ZZ".parse::<GeneratorList>(), Err(Refusal::Form));
    let (signs, z, x) = (vec![0, 0], vec![0, 1], vec![1, 0]);
    let refused = GeneratorList { signs, z, x };
    assert_eq!(
        refused.to_string(),
        "refused 9: two generators do not commute"
    );
}

#[test]
fn every_short_text_of_few_characters() {
    let characters = b"+-IXYZ\nx ";
    let mut texts = vec![Vec::new()];
    let mut counts = [0; 11];
    for length in 0..=5 {
        for text in &texts {
            let call = ReadCall::on(text);
            let answer = call.read();
            assert_eq!(answer, call.due(), "{text:?}");
            counts[usize::from(answer.err().unwrap_or(0))] += 1;
        }
        if length < 5 {
            let longer = |text: &Vec<u8>| characters.map(|c| [&text[..], &[c]].concat());
            texts = texts.iter().flat_map(longer).collect();
        }
    }
    // Of one line: two signs with X, Y and Z, and with I.
    assert_eq!((counts[0], counts[2], counts[10]), (6, 1, 2));
}

/// Ten texts, of lists on 1 to 20 qubits.
fn ten_texts() -> Vec<Vec<u8>> {
    let sizes = [1, 2, 3, 4, 5, 6, 8, 11, 16, 20];
    let text = |n| strings_text(&seeded(10 + n as u64, n)).into_bytes();
    sizes.map(text).to_vec()
}

/// A changed text is judged as the plain reader judges it, and rewritten unchanged where it is
/// accepted; answers the number.
fn judged(text: &[u8]) -> u8 {
    let call = ReadCall::on(text);
    let answer = call.read();
    assert_eq!(answer, call.due(), "{text:?}");
    match answer {
        Ok(list) => {
            let again = write_strings(&list).map(String::into_bytes);
            assert_eq!(again.as_deref(), Ok(text));
            0
        }
        Err(number) => number,
    }
}

#[test]
fn every_single_byte_change_of_ten_texts() {
    let mut counts = [0; 11];
    for text in ten_texts() {
        assert_eq!(judged(&text), 0);
        for place in 0..text.len() {
            for byte in (0..=255).filter(|&byte| byte != text[place]) {
                let mut changed = text.clone();
                changed[place] = byte;
                counts[usize::from(judged(&changed))] += 1;
            }
        }
    }
    assert!([0, 1, 9].iter().all(|&k| counts[k] > 100), "{counts:?}");
}

#[test]
fn every_byte_left_out_and_every_byte_put_in() {
    for text in ten_texts() {
        for place in 0..text.len() {
            let mut shorter = text.clone();
            shorter.remove(place);
            assert_eq!(judged(&shorter), 1);
            for byte in *b"+-IXYZ\n\r 0" {
                let mut longer = text.clone();
                longer.insert(place, byte);
                assert_eq!(judged(&longer), 1);
            }
        }
    }
}
