//! Values of Pauli rows: worked examples, state vectors on few qubits, membership on up to 64, and
//! what gates, CZ, measurements and rewritings do to them.

use crate::common::codes::image;
use crate::common::reference::{product, row_value};
use crate::common::vectors::state_of;
use crate::common::{parsed, random_record, Operation, Random, RecordCall};
use simulator::{Complex, Row, State};
use sukhlent::{complement, cz, expand, gate, reduce};
use sukhlent::{GeneratorList, Measured, Record, Refusal};

/// The value of a row written with a sign, as the call on the row without it gives it.
fn value(record: &Record, text: &str) -> i8 {
    let row = Row::parse(text);
    let plus = record.expectation(row.z, row.x).unwrap();
    if row.phase == 2 {
        -plus
    } else {
        plus
    }
}

/// The record of generators written as strings.
fn record(texts: &[&str]) -> Record {
    reduce(&parsed(texts)).unwrap()
}

/// The record of a ring of vertices, with code 0 everywhere.
fn ring(n: usize) -> Record {
    let neighbour = |q: usize| 1 << ((q + 1) % n) | 1 << ((q + n - 1) % n);
    Record {
        neighbours: (0..n).map(neighbour).collect(),
        codes: vec![0; n],
        used: 0,
    }
}

/// The value of a row on a state vector.
fn on_vector(state: &State, z: u64, x: u64) -> u8 {
    let value = state.expectation(&Row::new(0, z, x));
    let one = Complex::ONE;
    match [one, one.scale(-1.0), Complex::ZERO].map(|due| value.approx_eq(due)) {
        [true, false, false] => 0,
        [false, true, false] => 1,
        [false, false, true] => 2,
        _ => panic!("z {z:b}, x {x:b} has {value:?}"),
    }
}

/// Every row of n qubits.
fn all_rows(n: usize) -> impl Iterator<Item = (u64, u64)> {
    (0..1 << n).flat_map(move |z| (0..1 << n).map(move |x| (z, x)))
}

/// The words of a random product of generators, and their sign.
fn element(random: &mut Random, list: &GeneratorList) -> (u64, u64, u8) {
    let chosen = random.word() >> (64 - list.n());
    let answer = product(list, chosen);
    (answer.z, answer.x, answer.phase / 2)
}

#[test]
fn a_bell_state() {
    let bell = record(&["+XX", "+ZZ"]);
    let rows = [
        "+II", "+XX", "+ZZ", "+YY", "-YY", "-XX", "+XI", "+ZY", "-IZ",
    ];
    let values = rows.map(|row| value(&bell, row));
    assert_eq!(values, [1, 1, 1, -1, 1, -1, 0, 0, 0]);
}

#[test]
fn three_qubits_that_no_assignment_of_values_fits() {
    // XXX is -1 where XYY, YXY and YYX are 1.
    let ghz = record(&["-XXX", "+ZZI", "+IZZ"]);
    let values = ["+XXX", "+XYY", "+YXY", "+YYX"].map(|row| value(&ghz, row));
    assert_eq!(values, [-1, 1, 1, 1]);
}

#[test]
fn a_ring_of_five() {
    let ring = ring(5);
    let signs = all_rows(5).map(|(z, x)| ring.expectation(z, x).unwrap());
    let mut counts = [0; 3];
    signs.for_each(|sign| counts[(1 + sign) as usize] += 1);
    // Of the 32 elements 6 have a minus sign; all other rows are 0.
    assert_eq!(counts, [6, 992, 26]);
    assert_eq!(value(&ring, "+XZIIZ"), 1);
    assert_eq!(value(&ring, "+YYZIZ"), 1);
    assert_eq!(value(&ring, "+XXXXX"), -1);
    assert_eq!(value(&ring, "-YXYZZ"), 1);
    assert_eq!(value(&ring, "-YXYII"), 0);
}

#[test]
fn refusals_by_name() {
    let bell = record(&["+XX", "+ZZ"]);
    assert_eq!(bell.expectation(0b100, 0), Err(Refusal::Stray));
    assert_eq!(bell.expectation(0, 1 << 63), Err(Refusal::Stray));
    let loops = Record {
        neighbours: vec![0b01, 0],
        codes: vec![0, 0],
        used: 0,
    };
    assert_eq!(loops.expectation(0, 0), Err(Refusal::Graph));
}

#[test]
fn all_rows_on_all_records_of_two_qubits_against_state_vectors() {
    for (edge, codes) in (0..2).flat_map(|edge| (0..576).map(move |codes| (edge, codes))) {
        let record = Record {
            neighbours: vec![edge << 1, edge],
            codes: vec![(codes / 24) as u8, (codes % 24) as u8],
            used: 0,
        };
        let state = state_of(&record);
        let mut counts = [0; 3];
        for (z, x) in all_rows(2) {
            let answer = RecordCall::row_of(&record, z, x).expectation().unwrap();
            assert_eq!(answer, on_vector(&state, z, x), "{record:?}, {z:b}, {x:b}");
            counts[usize::from(answer)] += 1;
        }
        assert_eq!((counts[0] + counts[1], counts[2]), (4, 12), "{record:?}");
    }
}

#[test]
fn seeded_records_of_up_to_eight_qubits_against_state_vectors() {
    let mut counts = [0; 3];
    for seed in 0..400 {
        let mut random = Random::new(80_000 + seed);
        let n = 1 + random.below(8);
        let record = random_record(&mut random, n);
        let (state, list) = (state_of(&record), expand(&record).unwrap());
        for k in 0..24 {
            let (z, x) = match k % 2 {
                0 => (random.word() >> (64 - n), random.word() >> (64 - n)),
                _ => {
                    let (z, x, _) = element(&mut random, &list);
                    (z, x)
                }
            };
            let answer = RecordCall::row_of(&record, z, x).expectation().unwrap();
            assert_eq!(answer, on_vector(&state, z, x), "seed {seed}, {z:b}, {x:b}");
            counts[usize::from(answer)] += 1;
        }
    }
    assert!(counts.iter().all(|&count| count > 1000), "{counts:?}");
}

#[test]
fn records_of_up_to_64_qubits_against_membership() {
    let mut counts = [0; 3];
    for seed in 0..1500 {
        let mut random = Random::new(81_000 + seed);
        let n = 1 + random.below(64);
        let record = random_record(&mut random, n);
        let (mut z, mut x, sign) = element(&mut random, &expand(&record).unwrap());
        let changed = random.below(3) == 0;
        if changed {
            z ^= 1 << random.below(n);
            x ^= (random.below(2) as u64) << random.below(n);
        }
        let answer = RecordCall::row_of(&record, z, x).expectation().unwrap();
        assert_eq!(answer, row_value(&record, z, x), "seed {seed}");
        assert!(changed || answer == sign, "seed {seed}");
        counts[usize::from(answer)] += 1;
    }
    assert!(counts.iter().all(|&count| count > 200), "{counts:?}");
}

#[test]
fn a_single_letter_is_what_a_measurement_answers() {
    let mut seen = [0; 3];
    for seed in 0..2000 {
        let mut random = Random::new(82_000 + seed);
        let n = 1 + random.below(6);
        let record = random_record(&mut random, n);
        let (q, pauli) = (random.below(n), 1 + random.below(3));
        let (z, x) = ([0, 0, 1, 1][pauli] << q, [0, 1, 1, 0][pauli] << q);
        let answer = RecordCall::row_of(&record, z, x).expectation().unwrap();
        for bit in [0, 1] {
            let operation = Operation::Measure(pauli as u8, q as u64, bit);
            let measured = |determined| Measured {
                outcome: bit,
                determined,
            };
            let due = match answer {
                2 => Ok(measured(false)),
                sign if sign == bit => Ok(measured(true)),
                _ => Err(14),
            };
            let call = RecordCall::with(&record, operation);
            let given = call.apply().map(|(_, outcome)| outcome.unwrap());
            assert_eq!(given, due, "seed {seed}: {record:?}, {operation:?}");
        }
        seen[usize::from(answer)] += 1;
    }
    assert!(seen.iter().all(|&count| count > 100), "{seen:?}");
}

#[test]
fn gates_and_cz_change_the_value_as_they_change_the_row() {
    for seed in 0..400 {
        let mut random = Random::new(83_000 + seed);
        let n = 2 + random.below(63);
        let mut state = random_record(&mut random, n);
        let (z, x, sign) = element(&mut random, &expand(&state).unwrap());
        let mut row = Row::new(2 * sign, z, x);
        for _ in 0..20 {
            let (a, b) = random.pair_below(n);
            match random.below(4) {
                0 => {
                    let code = random.below(24) as u8;
                    gate(&mut state, a, code).unwrap();
                    row = sent(&row, a, code);
                }
                1 => {
                    cz(&mut state, a, b).unwrap();
                    row = through_cz(&row, a, b);
                }
                2 => complement(&mut state, a).unwrap(),
                _ => state = reduce(&expand(&state).unwrap()).unwrap(),
            }
            let due = 1 - row.phase as i8;
            assert_eq!(state.expectation(row.z, row.x), Ok(due), "seed {seed}");
        }
    }
}

/// A signed row with the letter at a qubit sent through a code.
fn sent(row: &Row, q: usize, code: u8) -> Row {
    let (phase, letter) = image(code, row.letter(q));
    let put = |word: u64, bit: u8| word & !(1 << q) | u64::from(bit) << q;
    let phase = (row.phase + phase) % 4;
    Row::new(phase, put(row.z, letter >> 1), put(row.x, letter & 1))
}

/// A signed row sent through CZ: X at one qubit brings Z at the other, and X or Y at both turns the
/// sign where exactly one of them is Y.
fn through_cz(row: &Row, a: usize, b: usize) -> Row {
    let [xa, xb] = [a, b].map(|q| row.x >> q & 1);
    let [za, zb] = [a, b].map(|q| row.z >> q & 1);
    let turned = (xa & xb & (za ^ zb)) as u8;
    Row::new(
        (row.phase + 2 * turned) % 4,
        row.z ^ xb << a ^ xa << b,
        row.x,
    )
}
