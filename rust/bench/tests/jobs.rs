//! A job answers the same in every way, and leaves the same state after every step.

use bench::load::{cluster, ghz, steps, unmeasured};
use bench::operation::Operation;
use bench::session::{Answer, Calls, Columns, Graph, Lists, Plain, Session};
use random::Draws;
use sukhlent::Record;

/// A step in one way: its answer, and the state that it leaves.
fn told<S: Session>(session: &mut S, operation: Operation) -> (Answer, Record) {
    (session.step(operation), session.record())
}

/// Runs a job in every way at once; how many steps were refused, determined and chosen.
fn counts(n: usize, job: &[Operation]) -> [usize; 3] {
    let (mut calls, mut lists, mut plain) = (Calls::start(n), Lists::start(n), Plain::start(n));
    let (mut columns, mut graph) = (Columns::start(n), Graph::start(n));
    let mut counts = [0; 3];
    for &operation in job {
        let by_calls = told(&mut calls, operation);
        assert_eq!(by_calls, told(&mut lists, operation), "{operation:?}");
        assert_eq!(by_calls, told(&mut plain, operation), "{operation:?}");
        assert_eq!(by_calls, told(&mut columns, operation), "{operation:?}");
        assert_eq!(by_calls, told(&mut graph, operation), "{operation:?}");
        let (answer, _) = by_calls;
        match answer {
            Answer::Refused => counts[0] += 1,
            Answer::Measured(measured) if measured.determined => counts[1] += 1,
            Answer::Measured(_) => counts[2] += 1,
            Answer::Done => (),
        }
    }
    counts
}

#[test]
fn the_first_draws() {
    let draws: Vec<u64> = Draws::new(1).take(2).collect();
    assert_eq!(draws, [1082269761, 1152992998833853505]);
}

#[test]
fn the_job_of_seed_1() {
    let counts = counts(64, &steps(64, 4096, 1));
    assert!(counts.iter().all(|&count| count > 100), "{counts:?}");
}

#[test]
fn jobs_on_every_number_of_qubits() {
    for n in 1..=64 {
        counts(n, &steps(n as u64, 256, 100 + n as u64));
    }
}

#[test]
fn the_loads_beside_the_job() {
    for n in [2, 16, 32, 64] {
        let loads = [
            unmeasured(n as u64, 512, 7),
            ghz(n as u64, 7),
            cluster(n as u64, 7),
        ];
        for job in loads {
            counts(n, &job);
        }
    }
}

#[test]
fn every_outcome_of_a_ghz_state_is_allowed() {
    let [refused, determined, chosen] = counts(64, &ghz(64, 3));
    assert_eq!([refused, determined, chosen], [0, 1, 63]);
}
