//! Each rule that demand 3 rests on, and each that came with document 02, broken alone, is noticed.
#![cfg(feature = "broken")]

use second::broken::{break_rule, Rule, LATER, RULES};
use second::histories::{run, Counters, Failure, Watch};
use std::time::Duration;

const LIMIT: Duration = Duration::from_secs(60);

fn noticed(rule: Rule, watch: Watch) -> Option<Failure> {
    break_rule(Some(rule));
    let failure = run(1, LIMIT, watch, &mut Counters::new());
    break_rule(None);
    if let Some(Failure {
        after, moves, what, ..
    }) = &failure
    {
        println!(
            "{rule:?}, {watch:?}: {after:?}, shrunk to {} moves, {what}",
            moves.len()
        );
    }
    failure
}

#[test]
fn each_is_noticed() {
    for rule in RULES.iter().chain(LATER).copied() {
        assert!(
            noticed(rule, Watch::Invariants).is_some(),
            "{rule:?} goes unnoticed"
        );
    }
}

// With capacities of 2 an inner page has no room for a pair in an epoch that splits it, and
// with 40 and 30 two of the rules want longer runs.
#[cfg(feature = "caps4")]
#[test]
fn each_is_noticed_by_demand_3_alone() {
    for rule in RULES {
        assert!(
            noticed(rule, Watch::Demand).is_some(),
            "{rule:?} goes unnoticed"
        );
    }
}
