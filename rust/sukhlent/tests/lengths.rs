//! Numbers of qubits and lengths of buffers that are not as they should be.

use crate::common::{list, random_rows, Operation, Random};
use crate::common::{ImageLengths, Lengths, Letters, ListCall, RecordCall, Side};
use sukhlent::{reduce, Record};

/// Lengths other than n, among them n modulo 256.
fn wrong(n: usize) -> impl Iterator<Item = usize> {
    [0, 1, n - 1, n + 1, 64, 65, n + 256]
        .into_iter()
        .filter(move |&l| l != n)
}

fn calls(n: usize) -> (ListCall, RecordCall<Lengths>) {
    let list = list(&random_rows(&mut Random::new(n as u64), n));
    let record = reduce(&list).unwrap();
    (ListCall::on(&list), RecordCall::on(&record))
}

/// The calls in place on the record of a call.
fn in_place<W>(call: &RecordCall<W>) -> [RecordCall<Operation>; 4] {
    Operation::EACH.map(|with| RecordCall {
        n: call.n,
        neighbours: call.neighbours.clone(),
        codes: call.codes.clone(),
        used: call.used,
        with,
    })
}

/// The image of the record of a call.
fn image_of<W>(call: &RecordCall<W>) -> RecordCall<ImageLengths> {
    RecordCall {
        n: call.n,
        ..RecordCall::image_of(&call.record())
    }
}

/// A cut of the record of a call.
fn cut_of<W>(call: &RecordCall<W>) -> RecordCall<Side> {
    RecordCall {
        n: call.n,
        ..RecordCall::cut_of(&call.record(), 1)
    }
}

/// The value of a row on the record of a call.
fn row_of<W>(call: &RecordCall<W>) -> RecordCall<Letters> {
    RecordCall {
        n: call.n,
        ..RecordCall::row_of(&call.record(), 1, 1)
    }
}

/// All calls on a record give the number.
fn assert_refused(call: &RecordCall<Lengths>, number: u8) {
    assert_eq!(call.expand(), Err(number), "{call:?}");
    assert_eq!(image_of(call).image(), Err(number), "{call:?}");
    assert_eq!(cut_of(call).cut(), Err(number), "{call:?}");
    assert_eq!(row_of(call).expectation(), Err(number), "{call:?}");
    for call in in_place(call) {
        assert_eq!(call.apply(), Err(number), "{call:?}");
    }
}

#[test]
fn numbers_of_qubits_out_of_range_give_2_whatever_the_buffers() {
    let numbers = [
        0,
        65,
        66,
        128,
        256,
        258,
        (1 << 32) + 2,
        (1 << 63) + 2,
        u64::MAX,
    ];
    for (mut list, mut record) in [1, 2, 63, 64].map(calls) {
        for n in numbers {
            (list.n, record.n) = (n, n);
            assert_eq!(list.check(), 2, "{n}");
            assert_eq!(list.reduce(), Err(2), "{n}");
            assert_eq!(list.product(1), Err(2), "{n}");
            assert_refused(&record, 2);
        }
    }
}

#[test]
fn n_places_for_n_out_of_range_give_2() {
    for n in [0, 65, 256] {
        let list = ListCall {
            n: n as u64,
            signs: vec![0; n],
            z: vec![0; n],
            x: vec![0; n],
            neighbours: n,
            codes: n,
        };
        let record = Record {
            neighbours: vec![0; n],
            codes: vec![0; n],
            used: 0,
        };
        assert_eq!((list.check(), list.reduce()), (2, Err(2)), "{n}");
        assert_eq!(list.product(0), Err(2), "{n}");
        assert_refused(&RecordCall::on(&record), 2);
    }
}

#[test]
fn a_wrong_length_of_a_list_gives_4() {
    for n in [1, 2, 8, 63, 64] {
        let (right, _) = calls(n);
        assert_eq!(right.check(), 0);
        assert!(right.reduce().is_ok());
        for length in wrong(n) {
            let mut signs = right.clone();
            signs.signs.resize(length, 0);
            let mut z = right.clone();
            z.z.resize(length, 0);
            let mut x = right.clone();
            x.x.resize(length, 0);
            for call in [signs, z, x] {
                assert_eq!(call.check(), 4, "{n} {length}");
                assert_eq!(call.reduce(), Err(4), "{n} {length}");
                assert_eq!(call.product(1), Err(4), "{n} {length}");
            }
        }
    }
}

#[test]
fn a_wrong_length_of_a_record_gives_4() {
    for n in [1, 2, 8, 63, 64] {
        let (_, right) = calls(n);
        assert!(right.expand().is_ok());
        for length in wrong(n) {
            let mut neighbours = right.clone();
            neighbours.neighbours.resize(length, 0);
            let mut codes = right.clone();
            codes.codes.resize(length, 0);
            for call in [neighbours, codes] {
                assert_refused(&call, 4);
            }
        }
    }
}

#[test]
fn a_wrong_length_of_an_answer_buffer_gives_4() {
    for n in [1, 2, 8, 63, 64] {
        let (list, record) = calls(n);
        for length in wrong(n) {
            for (neighbours, codes) in [(length, n), (n, length), (length, length)] {
                let call = ListCall {
                    neighbours,
                    codes,
                    ..list.clone()
                };
                assert_eq!(call.reduce(), Err(4), "{n} {length}");
                assert_eq!(call.check(), 0, "a check has no answer buffers");
            }
            for (signs, z, x) in [(length, n, n), (n, length, n), (n, n, length)] {
                let with = Lengths { signs, z, x };
                let call = RecordCall {
                    with,
                    ..record.clone()
                };
                assert_eq!(call.expand(), Err(4), "{n} {length}");
            }
        }
    }
}

#[test]
fn another_n_than_the_buffers_have_gives_4() {
    for n in [1, 2, 8, 63, 64] {
        let (mut list, mut record) = calls(n);
        for other in (1..=64).filter(|&other| other != n as u64) {
            (list.n, record.n) = (other, other);
            assert_eq!((list.check(), list.reduce()), (4, Err(4)), "{n} {other}");
            assert_refused(&record, 4);
        }
    }
}
