//! `bytes SEED SECONDS`: arbitrary tables, lengths and sessions, held against demand 1.

use second::bytes::{run, Counters};
use second::driver::{ended, seed_and_seconds};
use std::process::ExitCode;
use std::time::Duration;

fn main() -> ExitCode {
    let words: Vec<String> = std::env::args().skip(1).collect();
    let Some((seed, seconds)) = seed_and_seconds(&words) else {
        eprintln!("usage: bytes SEED|fresh SECONDS");
        return ExitCode::from(2);
    };
    println!("bytes, seed {seed}, {seconds} seconds");
    let mut counters = Counters::new();
    let failure = run(seed, Duration::from_secs(seconds), &mut counters);
    println!("{counters}");
    if let Some(failure) = failure {
        println!("{failure}");
        return ExitCode::FAILURE;
    }
    ended(&counters.missing())
}
