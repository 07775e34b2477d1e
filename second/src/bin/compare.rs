//! `compare SEED SECONDS`: the proved store beside the second program, call by call.

use std::process::ExitCode;

#[cfg(not(store))]
fn main() -> ExitCode {
    eprintln!("compare: the store's library is not there; `./build` writes it");
    ExitCode::from(2)
}

#[cfg(store)]
fn main() -> ExitCode {
    use second::compare::{notice, rising, run, Counters};
    use second::driver::{ended, seed_and_seconds};
    use std::time::Duration;

    let words: Vec<String> = std::env::args().skip(1).collect();
    let Some((seed, seconds)) = seed_and_seconds(&words) else {
        eprintln!("usage: compare SEED|fresh SECONDS");
        return ExitCode::from(2);
    };
    println!("compare, seed {seed}, {seconds} seconds");
    let mut counters = Counters::default();
    let compared = notice()
        .and_then(|()| rising(&mut counters))
        .and_then(|()| run(seed, Duration::from_secs(seconds), &mut counters));
    println!("{counters}");
    if let Err(what) = compared {
        println!("{what}");
        return ExitCode::FAILURE;
    }
    ended(&counters.missing())
}
