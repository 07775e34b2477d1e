//! Open: tests the stable table, gives this opening a counter of its own, and starts a session.

use crate::answer::{DAMAGED, DONE, LENGTH, SPENT};
use crate::broken::{broken, Rule};
use crate::field::{get32, put32};
use crate::layout::{zero, LAST_NUMBER};
use crate::session::Session;
use crate::tree::Tree;
use crate::walk::pages;

pub fn open(working: &mut [u8], stable: &mut [u8]) -> (u32, Session) {
    let none = Session::new(0, 0);
    let Some(n) = pages(working, stable) else {
        return (LENGTH, none);
    };
    let Some(tree) = Tree::good(stable, n) else {
        return (DAMAGED, none);
    };
    let c = get32(stable, zero::NUMBER);
    if c > LAST_NUMBER {
        return (SPENT, none);
    }
    // Raised before anything is written under this counter: a second opening after a crash
    // must not hand it out again.
    if !broken(Rule::OpenRaises) {
        put32(stable, zero::NUMBER, c + 1);
    }
    working.copy_from_slice(stable);
    (DONE, opened(n, c, &tree))
}

/// Everything is free that the tree doesn't need, previous pages of lost entries included. The
/// total is what the tree shows.
fn opened(n: u16, c: u32, tree: &Tree) -> Session {
    let mut session = Session::new(n, c);
    session.total = tree.entries().count() as u32;
    let children = tree.children();
    let lost_previous = tree.lost_previous();
    for p in 1..usize::from(n) {
        let kept = lost_previous[p] && !broken(Rule::LostPreviousKept);
        session.free[p] = !children[p] && !kept;
    }
    session
}
