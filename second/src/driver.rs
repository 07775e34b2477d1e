//! What the random drivers have in common: the words they are started with, and how they end.

use crate::rng::seed;
use std::fmt::Display;
use std::process::ExitCode;

/// Seed and seconds of a run, from two words of the command line.
pub fn seed_and_seconds(words: &[String]) -> Option<(u64, u64)> {
    match words {
        [first, second] => seed(first).zip(second.parse().ok()),
        _ => None,
    }
}

/// A run without a failure is good if it has met all that it counts.
pub fn ended<T: Display>(missing: &[T]) -> ExitCode {
    for name in missing {
        println!("never met: {name}");
    }
    ExitCode::from(u8::from(!missing.is_empty()))
}
