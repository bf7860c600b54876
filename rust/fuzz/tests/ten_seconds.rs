//! Ten seconds of any bytes: no case fails, and every call meets all that the header publishes.

use std::time::Duration;

#[test]
fn no_case_fails_and_nothing_published_is_missing() {
    let counts = fuzz::run(Duration::from_secs(10), 1_000_000_000, |_| ());
    let counts = counts.unwrap_or_else(|case| panic!("case {case} fails"));
    assert_eq!(counts.missing(), [""; 0], "{counts}");
}
