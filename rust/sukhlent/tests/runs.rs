//! Many steps in one call: what the calls leave and answer step by step, refused steps, every refusal of the whole call
//! and pairs of faults, between guards.

use crate::common::damage::{each_fault, each_pair, record_faults, used_faults, Fault};
use crate::common::runs::Steps;
use crate::common::{random_record, random_used_record, Random, RecordCall};
use sukhlent::{codes, expand, run, Measured, Pauli, Record, Refusal, Step};

/// A random step on n qubits: mostly one that may be accepted, at times with a field one too large or not 0.
fn step(random: &mut Random, n: usize) -> (u8, u16, u16, u16) {
    let op = random.below(7) as u8;
    let [a, b] = [0, 1].map(|_| random.below(n) as u16);
    let (b, value) = match op {
        0 => (0, random.below(24) as u16),
        1 | 4 => (b, 0),
        2 | 5 => (0, random.below(6) as u16),
        6 => (0, 2 * random.below(6) as u16),
        _ => (0, 0),
    };
    match random.below(24) {
        0 => (op, n as u16, b, value),
        1 => (op, a, n as u16, value),
        2 => (op, a, b, value + 1),
        3 => (op, a, b, 24),
        4 => (op, a, b, 264),
        5 => (op, random.word() as u16, b, value),
        _ => (op, a, b, value),
    }
}

/// A call on a record of n vertices with so many random steps.
fn call(random: &mut Random, record: &Record, count: usize) -> RecordCall<Steps> {
    let n = record.n();
    let steps: Vec<_> = (0..count).map(|_| step(random, n)).collect();
    RecordCall::with(record, Steps::of(&steps))
}

fn assert_as_the_calls(call: &RecordCall<Steps>) -> Vec<[u8; 3]> {
    let due = call.one_by_one();
    assert_eq!(call.run(), Ok(due.clone()), "{call:?}");
    due.1
}

#[test]
fn seeded_runs_are_what_the_calls_leave_step_by_step() {
    let mut random = Random::new(23);
    let mut numbers = [0; 21];
    for n in (1..=12).chain([31, 32, 33, 63, 64]).cycle().take(340) {
        let record = match random.below(4) {
            0 => random_used_record(&mut random, n),
            1 => Record::zeros(n),
            _ => random_record(&mut random, n),
        };
        let count = random.below(200);
        let call = call(&mut random, &record, count);
        for told in assert_as_the_calls(&call) {
            numbers[usize::from(told[0])] += 1;
        }
    }
    for number in [0, 6, 8, 14, 16, 20] {
        assert!(numbers[number] > 50, "{number}: {numbers:?}");
    }
}

/// A gate or a CZ finds a reduced record or not, behind each kind of step: a complement and a pivot do not reduce, and a
/// refused step leaves the record as it was.
#[test]
fn gates_behind_rewritings_and_refused_steps() {
    let mut random = Random::new(128);
    for n in [2, 3, 5, 8, 13, 40, 64].into_iter().cycle().take(140) {
        let record = random_record(&mut random, n);
        let unmeasured = |_| loop {
            let step = step(&mut random, n);
            if ![2, 5].contains(&step.0) {
                break step;
            }
        };
        let steps: Vec<_> = (0..200).map(unmeasured).collect();
        assert_as_the_calls(&RecordCall::with(&record, Steps::of(&steps)));
    }
}

#[test]
fn no_step_and_4096_steps() {
    let mut random = Random::new(1);
    for count in [0, 1, 63, 64, 65, 4095, 4096] {
        let record = random_record(&mut random, 20);
        let call = call(&mut random, &record, count);
        assert_eq!(assert_as_the_calls(&call).len(), count);
    }
}

#[test]
fn more_than_4096_steps_give_15_whatever_else() {
    let mut random = Random::new(15);
    let record = random_record(&mut random, 8);
    for count in [4097, 10_000] {
        let mut call = call(&mut random, &record, count);
        assert_eq!(call.run(), Err(15));
        call.n = 0;
        call.with.a.clear();
        call.with.ops[7] = 7;
        assert_eq!(call.run(), Err(15));
    }
    // The number of the operations counts.
    let mut call = call(&mut random, &record, 4096);
    call.with.a.push(0);
    assert_eq!(call.run(), Err(4));
}

/// The faults of the steps of a call with eight of them.
fn step_faults() -> Vec<Fault<RecordCall<Steps>>> {
    vec![
        (15, |call| call.with.ops.resize(4097, 0)),
        (4, |call| call.with.a.push(0)),
        (4, |call| call.with.b.truncate(7)),
        (4, |call| call.with.value.clear()),
        (4, |call| call.with.refusals = 7),
        (4, |call| call.with.outcomes = 9),
        (4, |call| call.with.determined = 0),
        (6, |call| call.with.ops[0] = 7),
        (6, |call| call.with.ops[7] = 255),
    ]
}

fn base() -> RecordCall<Steps> {
    let mut random = Random::new(8);
    let record = random_record(&mut random, 8);
    call(&mut random, &record, 8)
}

fn assert_refused(call: &RecordCall<Steps>, number: u8, what: &str) {
    assert_eq!(call.due(), number, "the fault itself: {what}");
    assert_eq!(call.run(), Err(number), "{what}: {call:?}");
}

#[test]
fn every_fault_gives_its_number() {
    assert_as_the_calls(&base());
    each_fault(&step_faults(), base, assert_refused);
    each_fault(&record_faults(), base, assert_refused);
    each_fault(&used_faults(), base, assert_refused);
}

#[test]
fn of_two_faults_the_earlier_number_is_given() {
    let faults = [step_faults(), record_faults()].concat();
    each_pair(&faults, base, assert_refused);
}

#[test]
fn a_run_with_its_answers() -> Result<(), Refusal> {
    let mut record = Record::zeros(2);
    let steps = [
        Step::Gate(0, codes::H),
        Step::Gate(1, codes::H),
        Step::Cz(0, 1),
        Step::Gate(1, codes::H),
        Step::Measure(Pauli::Z, 0, 1),
        Step::Gate(0, codes::H),
        Step::Measure(Pauli::Z, 1, 0),
        Step::Measure(Pauli::Z, 1, 1),
    ];
    let free = Measured {
        outcome: 1,
        determined: false,
    };
    let found = Measured {
        outcome: 1,
        determined: true,
    };
    assert_eq!(
        run(&mut record, &steps)?,
        [
            Ok(None),
            Ok(None),
            Ok(None),
            Ok(None),
            Ok(Some(free)),
            Err(Refusal::Used),
            Err(Refusal::Contradicted),
            Ok(Some(found)),
        ]
    );
    assert_eq!((record.codes.as_slice(), record.used), (&[10, 10][..], 3));
    assert_eq!(expand(&record)?.to_string(), "-ZI\n-IZ\n");
    Ok(())
}

#[test]
fn arguments_that_no_step_has_refuse_the_step() {
    let mut record = Record::zeros(2);
    let steps = [
        Step::Gate(1 << 20, 0),
        Step::Cz(0, 65_536),
        Step::Gate(0, 24),
        Step::Measure(Pauli::Z, 0, 2),
        Step::Complement(2),
        Step::Pivot(0, 1),
    ];
    let told = run(&mut record, &steps).expect("an accepted call");
    let numbers: Vec<u8> = told.iter().map(|t| t.unwrap_err().number()).collect();
    assert_eq!(numbers, [8, 8, 6, 6, 8, 8]);
    assert_eq!(record, Record::zeros(2));
    let many = vec![Step::Complement(0); 4097];
    assert_eq!(run(&mut record, &many), Err(Refusal::Steps));
    assert_eq!(run(&mut Record::zeros(0), &[]), Err(Refusal::Count));
}
