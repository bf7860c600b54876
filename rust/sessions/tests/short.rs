//! Short sessions on some numbers of qubits.

use sessions::{pairs, rows, run, source, source_runs, Counts};

fn session(n: usize, seed: u64, calls: u64) -> Counts {
    run(n, seed, calls, |_, _| ()).unwrap_or_else(|difference| panic!("{difference}"))
}

#[test]
fn sixty_four_qubits() {
    for seed in 1..=3 {
        let counts = session(64, seed, 6000);
        let Counts {
            gates,
            czs,
            chosen,
            determined,
            complements,
            contradicted,
            used,
            refused,
            starts,
            values,
            compared,
        } = counts;
        let outcomes = [chosen, determined, contradicted, used, refused];
        let all = [&outcomes, &[gates, czs, complements][..]].concat();
        assert!(all.iter().all(|&times| times > 50), "{counts}");
        assert_eq!(all.iter().sum::<u64>(), 6000);
        assert!(starts > 5, "{counts}");
        // 36,000 rows of each seed, and of each value many.
        assert_eq!(values.iter().sum::<u64>(), 36_000);
        assert!(values.iter().all(|&times| times > 3000), "{counts}");
        // Each eighth call a comparison with the state eight calls before.
        assert!(compared.iter().sum::<u64>() > 700, "{counts}");
        assert!(compared.iter().all(|&times| times > 50), "{counts}");
    }
}

#[test]
fn every_number_of_qubits() {
    for n in 1..=64 {
        session(n, n as u64, 600);
    }
}

#[test]
fn sessions_of_one_seed_are_the_same() {
    assert_eq!(session(9, 5, 2000), session(9, 5, 2000));
    assert_ne!(session(9, 5, 2000), session(9, 6, 2000));
}

#[test]
fn a_source_that_goes_on() {
    for seed in 1..=3 {
        let counts = source(64, seed, 6000).unwrap_or_else(|difference| panic!("{difference}"));
        let made = [counts.gates, counts.czs, counts.chosen, counts.determined];
        let refused = [counts.used, counts.not_used];
        let all = [&made[..], &refused, &[counts.renewed]].concat();
        assert!(all.iter().all(|&times| times > 50), "{counts}");
        assert_eq!(all.iter().sum::<u64>(), 6000, "{counts}");
        assert!(counts.other_bits > 20 && counts.most_used > 5, "{counts}");
    }
    for n in 1..=64 {
        source(n, n as u64, 300).unwrap_or_else(|difference| panic!("{difference}"));
    }
}

/// Gates, CZ, observations and renewals as the steps of runs, which settle the record late.
#[test]
fn a_source_that_goes_on_in_runs() {
    for seed in 1..=3 {
        let counts =
            source_runs(64, seed, 100, 400).unwrap_or_else(|difference| panic!("{difference}"));
        let made = [counts.gates, counts.czs, counts.chosen, counts.determined];
        let refused = [counts.used, counts.not_used];
        let all = [&made[..], &refused, &[counts.renewed]].concat();
        assert!(all.iter().all(|&times| times > 100), "{counts}");
        assert!(counts.other_bits > 20 && counts.most_used > 5, "{counts}");
    }
    for n in 1..=64 {
        source_runs(n, n as u64, 20, 40).unwrap_or_else(|difference| panic!("{difference}"));
    }
    source_runs(64, 4, 3, 4096).unwrap_or_else(|difference| panic!("{difference}"));
}

#[test]
fn rows_of_any_weight() {
    let counts = rows(64, 1, 200_000).unwrap_or_else(|difference| panic!("{difference}"));
    let made = [counts.gates, counts.czs, counts.observed, counts.used];
    let measured = [counts.chosen, counts.determined];
    assert_eq!(
        [&made[..], &measured].concat().iter().sum::<u64>(),
        200_000,
        "{counts}"
    );
    assert!(
        made.iter().all(|&times| times > 7) && measured.iter().all(|&times| times > 20_000),
        "{counts}"
    );
    assert!(
        counts.other_bits > 10_000 && counts.most_letters > 50,
        "{counts}"
    );
    for n in 1..=64 {
        rows(n, n as u64, 300).unwrap_or_else(|difference| panic!("{difference}"));
    }
}

#[test]
fn ten_thousand_pairs_of_runs_in_which_the_other_groups_calls_differ() {
    let counts = pairs(1, 10_000).unwrap_or_else(|difference| panic!("{difference}"));
    assert_eq!(counts.own, 2 * 10_000 * 14);
    assert!(counts.others > 400_000, "{counts}");
    assert!(
        counts.accepted.iter().all(|&times| times > 3_000),
        "{counts}"
    );
    for number in [6, 19, 8, 16, 20, 17, 14, 18] {
        assert!(counts.refused[number] > 50, "{number}: {counts:?}");
    }
    assert!(counts.different > 9_000, "{counts}");
}
