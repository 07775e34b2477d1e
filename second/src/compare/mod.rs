//! The proved store and this program, held against each other: the same calls on the same bytes, and after every call
//! the same answer, session, tables and lists, byte for byte.

mod both;
mod histories;
mod notice;
mod rising;
mod tables;

pub use both::{Both, Counters};
pub use notice::notice;
pub use rising::rising;

use crate::rng::Rng;
use std::time::{Duration, Instant};

/// What differs, and where.
pub type Alike<T> = Result<T, String>;

/// Random histories and arbitrary tables, in turn, until time is up or something differs.
pub fn run(seed: u64, time: Duration, counters: &mut Counters) -> Alike<()> {
    let seeds = Rng::new(seed);
    let end = Instant::now() + time;
    while Instant::now() < end {
        histories::history(seeds.next(), counters)?;
        for _ in 0..TABLES {
            tables::table(seeds.next(), counters)?;
        }
    }
    Ok(())
}

/// Arbitrary tables for each history: both then take about the same time.
const TABLES: usize = 60;
