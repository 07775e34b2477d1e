//! The comparison tells of whatever differs: one of the two stores is made a wrong one.

/// Without the store's library there would be nothing to break a rule against, and no test to fail.
#[cfg(all(feature = "broken", not(store)))]
#[test]
fn the_store_is_there() {
    panic!("no library of the store: `./build` writes it");
}

#[cfg(all(store, not(any(feature = "caps4", feature = "caps2"))))]
#[test]
fn a_change_in_one_store_is_told_of() {
    assert_eq!(second::compare::notice(), Ok(()));
}

/// Where the second program breaks a rule, it is the proved store that differs from it.
#[cfg(all(
    store,
    feature = "broken",
    not(any(feature = "caps4", feature = "caps2"))
))]
#[test]
fn each_broken_rule_is_told_of() {
    use second::broken::{break_rule, LATER, RULES};
    use second::compare::{run, Counters};
    use std::time::{Duration, Instant};

    for rule in RULES.iter().chain(LATER).copied() {
        break_rule(Some(rule));
        let start = Instant::now();
        let told = run(1, Duration::from_secs(60), &mut Counters::default());
        break_rule(None);
        let told = told.expect_err("a broken rule");
        let what = told.lines().last().unwrap_or_default();
        println!("{rule:?}: {:?}, {what}", start.elapsed());
    }
}
