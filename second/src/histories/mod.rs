//! Random histories of calls and crashes, with all of demand 3 checked on the way.

mod call;
mod carried;
mod counters;
mod delivery;
mod generator;
mod keys;
mod mix;
mod observe;
mod player;
mod restart;
mod set;
mod shrink;
mod states;
mod told;
mod withdrawal;

pub use call::{Call, Mix};
pub use counters::Counters;
pub use generator::Generator;
pub use player::{Player, Watch};
pub use set::Set;
pub use states::States;

use crate::rng::Rng;
use std::fmt;
use std::time::{Duration, Instant};

/// A call, and whether it loads a store: the invariants are left unchecked after it.
#[derive(Clone, Debug)]
pub struct Move {
    pub call: Call,
    pub loads: bool,
}

/// A history that ended badly, made as short as it could be.
pub struct Failure {
    pub seed: u64,
    pub n: usize,
    pub moves: Vec<Move>,
    pub what: String,
    /// How long the run had gone on.
    pub after: Duration,
}

impl fmt::Display for Failure {
    fn fmt(&self, out: &mut fmt::Formatter) -> fmt::Result {
        writeln!(out, "history of seed {} with {} pages:", self.seed, self.n)?;
        for Move { call, .. } in &self.moves {
            writeln!(out, "  {call}")?;
        }
        write!(out, "fails: {}", self.what)
    }
}

/// Plays random histories until time is up or one fails.
pub fn run(seed: u64, time: Duration, watch: Watch, counters: &mut Counters) -> Option<Failure> {
    let seeds = Rng::new(seed);
    let start = Instant::now();
    while start.elapsed() < time {
        if let Some(failure) = history(seeds.next(), watch, counters) {
            let after = start.elapsed();
            return Some(shrink::shrink(Failure { after, ..failure }, watch));
        }
    }
    None
}

/// One random history; if it fails, with all its moves.
fn history(seed: u64, watch: Watch, counters: &mut Counters) -> Option<Failure> {
    let mut generator = Generator::new(seed);
    let mut player = Player::new(generator.n, watch);
    let mut moves = Vec::new();
    counters.add("histories");
    while let Some(next) = generator.next(&player) {
        moves.push(next.clone());
        if let Err(what) = player.play(&next, counters) {
            return Some(Failure {
                seed,
                n: generator.n,
                moves,
                what,
                after: Duration::ZERO,
            });
        }
        if player.over {
            break;
        }
    }
    counters.end(&player);
    None
}
