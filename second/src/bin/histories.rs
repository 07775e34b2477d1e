//! `histories SEED SECONDS`: random histories with crashes, held against demand 3.

use second::driver::{ended, seed_and_seconds};
use second::histories::{run, Counters, Watch};
use std::process::ExitCode;
use std::time::Duration;

const USAGE: &str = "usage: histories SEED|fresh SECONDS [demand] [RULE to break]";

/// Breaks the rule of this name.
#[cfg(feature = "broken")]
fn break_rule(name: &str) -> bool {
    use second::broken::{break_rule, LATER, RULES};
    let mut rules = RULES.iter().chain(LATER).copied();
    let rule = rules.find(|rule| format!("{rule:?}") == name);
    break_rule(rule);
    rule.is_some()
}

#[cfg(not(feature = "broken"))]
fn break_rule(_: &str) -> bool {
    false
}

fn main() -> ExitCode {
    let words: Vec<String> = std::env::args().skip(1).collect();
    let numbers = words.get(..2).and_then(seed_and_seconds);
    let Some((seed, seconds)) = numbers else {
        eprintln!("{USAGE}");
        return ExitCode::from(2);
    };
    let mut watch = Watch::Invariants;
    for word in &words[2..] {
        if word == "demand" {
            watch = Watch::Demand;
        } else if !break_rule(word) {
            eprintln!("{USAGE}");
            return ExitCode::from(2);
        }
    }
    println!("histories, seed {seed}, {seconds} seconds");
    let mut counters = Counters::new();
    let failure = run(seed, Duration::from_secs(seconds), watch, &mut counters);
    println!("{counters}");
    if let Some(failure) = failure {
        println!("{failure}");
        return ExitCode::FAILURE;
    }
    ended(&counters.missing())
}
