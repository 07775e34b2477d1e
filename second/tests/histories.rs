//! A short run of random histories and of arbitrary tables; longer ones are programs.

use second::{bytes, histories};
use std::time::Duration;

const ROUND: Duration = Duration::from_secs(2);
/// Rounds that a slow machine may take until every counter is reached.
const ROUNDS: u64 = 10;

#[test]
fn random_histories_keep_demand_3() {
    let mut counters = histories::Counters::new();
    for seed in 1..=ROUNDS {
        let failure = histories::run(seed, ROUND, histories::Watch::Invariants, &mut counters);
        if let Some(failure) = failure {
            panic!("{failure}");
        }
        if counters.missing().is_empty() {
            break;
        }
    }
    assert_eq!(counters.missing(), [""; 0]);
}

#[test]
fn arbitrary_tables_keep_demand_1() {
    let mut counters = bytes::Counters::new();
    for seed in 1..=ROUNDS {
        let failure = bytes::run(seed, ROUND, &mut counters);
        assert_eq!(failure, None);
        if counters.missing().is_empty() {
            break;
        }
    }
    assert_eq!(counters.missing(), [""; 0]);
}
