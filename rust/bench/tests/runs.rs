//! Many steps in one call answer what both tableaux do, step by step, and leave their state.

use bench::load::{cluster, ghz, steps, unmeasured};
use bench::operation::Operation;
use bench::runs::{cut, tableau, whole, Steps};
use bench::session::{Columns, Plain, Session};

/// In one call and cut behind each measurement, against both tableaux; how many steps the call refuses by 16.
fn used(n: usize, job: &[Operation]) -> usize {
    beside::<Columns>(n, job);
    beside::<Plain>(n, job)
}

fn beside<S: Session>(n: usize, job: &[Operation]) -> usize {
    let steps = Steps::of(job);
    let ran = whole(n, &steps);
    let (session, answers) = tableau::<S>(n, job, true);
    assert_eq!(ran.answers(), answers, "{n} qubits, in one call");
    assert_eq!((ran.neighbours, ran.codes), record(&session));
    let ran = cut(n, &steps);
    let (session, each) = tableau::<S>(n, job, false);
    assert_eq!(ran.answers(), each, "{n} qubits, cut");
    assert_eq!((ran.neighbours, ran.codes), record(&session));
    answers.iter().filter(|answer| answer[0] == 16).count()
}

fn record(session: &impl Session) -> (Vec<u64>, Vec<u8>) {
    let record = session.record();
    (record.neighbours, record.codes)
}

#[test]
fn the_job_of_seed_1() {
    assert_eq!(used(64, &steps(64, 4096, 1)), 3918);
}

#[test]
fn jobs_on_every_number_of_qubits() {
    for n in 1..=64 {
        for seed in 1..=8 {
            used(n, &steps(n as u64, 256, 100 * seed + n as u64));
        }
    }
}

#[test]
fn the_loads_beside_the_job() {
    for n in [2, 16, 32, 64] {
        assert_eq!(used(n as usize, &unmeasured(n, 4096, 7)), 0);
        assert_eq!(used(n as usize, &ghz(n, 7)), 0);
        assert_eq!(used(n as usize, &cluster(n, 7)), 0);
    }
}
