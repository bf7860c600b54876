//! Calls on one record.

use crate::arguments::{amplitude_call, cut_call, expand_call, expectation_call, image_call, size};
use crate::common::local::complemented;
use crate::common::reference::{cut_rank, plot_lines, product, row_value, turns};
use crate::common::vectors::state_of;
use crate::common::{ImageLengths, Random, RecordCall};
use sukhlent::{check, expand as expanded, reduce, GeneratorList, Image, Record};

/// An expanded list is accepted.
pub fn expand(random: &mut Random) -> u8 {
    let n = size(random);
    let call = expand_call(random, n);
    let answer = call.expand();
    let number = answer.as_ref().err().copied().unwrap_or(0);
    assert_eq!(number, call.due(), "{call:?}");
    if let Ok(list) = answer {
        assert_eq!(check(&list), Ok(()), "{call:?}");
    }
    number
}

/// An image graph with its signs has the record's group, and the list leads to it.
pub fn image(random: &mut Random) -> u8 {
    let n = size(random);
    let call = image_call(random, n);
    let answer = call.image();
    let number = answer.as_ref().err().copied().unwrap_or(0);
    call.assert_due(number);
    if let Ok(image) = answer {
        assert_stands_for(&call, image);
    }
    number
}

/// A rank is that of plain elimination.
pub fn cut(random: &mut Random) -> u8 {
    let n = size(random);
    let call = cut_call(random, n);
    let answer = call.cut();
    let number = answer.err().unwrap_or(0);
    assert_eq!(number, call.due(), "{call:?}");
    if let Ok(rank) = answer {
        assert_eq!(rank, cut_rank(&call.neighbours, call.with.0), "{call:?}");
    }
    number
}

/// On few qubits the line is that of the state's vector. On any number an element of the group leads
/// to another word, and turns the value.
pub fn amplitude(random: &mut Random) -> u8 {
    let n = size(random);
    let call = amplitude_call(random, n);
    let answer = call.amplitude();
    let number = answer.err().unwrap_or(0);
    assert_eq!(number, call.due(), "{call:?}");
    let Ok(line) = answer else {
        return number;
    };
    let (record, y) = (call.record(), call.with.0);
    if record.n() <= 6 {
        assert_eq!(line, plot_lines(&state_of(&record))[y as usize], "{call:?}");
    }
    let list = expanded(&record).expect("an accepted record");
    let element = product(&list, random.word() >> (64 - record.n()));
    let there = RecordCall::amplitude_of(&record, y ^ element.x).amplitude();
    let [re, im, p] = line.map(f64::from_bits);
    let turned = match turns(&element, y) {
        0 => [re, im, p],
        1 => [0.0 - im, re, p],
        2 => [0.0 - re, 0.0 - im, p],
        _ => [im, 0.0 - re, p],
    };
    assert_eq!(there, Ok(turned.map(f64::to_bits)), "{call:?}");
    number
}

/// A value is that of membership in the group.
pub fn expectation(random: &mut Random) -> u8 {
    let n = size(random);
    let call = expectation_call(random, n);
    let answer = call.expectation();
    let number = answer.err().unwrap_or(0);
    assert_eq!(number, call.due(), "{call:?}");
    if let Ok(value) = answer {
        let due = row_value(&call.record(), call.with.z, call.with.x);
        assert_eq!(value, due, "{call:?}");
    }
    number
}

/// The image has the group of the record, whose used word is not asked for, and its list leads from
/// the one graph to the other.
fn assert_stands_for(call: &RecordCall<ImageLengths>, image: Image) {
    let led = complemented(&call.neighbours, &image.complementations);
    assert_eq!(led, image.neighbours, "{call:?}");
    let of_image = GeneratorList {
        x: (0..image.signs.len()).map(|q| 1 << q).collect(),
        signs: image.signs,
        z: image.neighbours,
    };
    let unused = Record {
        used: 0,
        ..call.record()
    };
    let of_record = expanded(&unused).expect("an accepted record");
    assert_eq!(reduce(&of_image), reduce(&of_record), "{call:?}");
}
