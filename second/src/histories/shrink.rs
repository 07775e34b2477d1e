//! Makes a failing history short: leaves out what it fails without.

use super::counters::Counters;
use super::player::{Player, Watch};
use super::{Failure, Move};
use std::time::{Duration, Instant};

/// Longer than this a failure isn't worked on.
const PATIENCE: Duration = Duration::from_secs(10);

/// How these moves fail, and after how many, if they do.
fn fails(n: usize, moves: &[Move], watch: Watch) -> Option<(String, usize)> {
    let mut player = Player::new(n, watch);
    let mut counters = Counters::new();
    for (index, next) in moves.iter().enumerate() {
        if let Err(what) = player.play(next, &mut counters) {
            return Some((what, index + 1));
        }
        if player.over {
            return None;
        }
    }
    None
}

/// Leaves out ever smaller parts as long as the rest still fails.
pub fn shrink(mut failure: Failure, watch: Watch) -> Failure {
    let end = Instant::now() + PATIENCE;
    let mut size = failure.moves.len();
    while size > 0 && Instant::now() < end {
        let mut at = 0;
        while at < failure.moves.len() && Instant::now() < end {
            let mut shorter = failure.moves.clone();
            shorter.drain(at..(at + size).min(failure.moves.len()));
            if let Some((what, length)) = fails(failure.n, &shorter, watch) {
                shorter.truncate(length);
                failure.moves = shorter;
                failure.what = what;
            } else {
                at += size;
            }
        }
        size /= 2;
    }
    failure
}
