//! Sync: the working table reaches the stable table.

use crate::answer::{DONE, LENGTH, SPENT};
use crate::broken::{broken, Rule};
use crate::field::put32;
use crate::layout::{zero, LAST_NUMBER};
use crate::session::Session;
use crate::walk::session_pages;

pub fn sync(working: &mut [u8], stable: &mut [u8], mut session: Session) -> (u32, Session) {
    if session_pages(working, stable, &session).is_none() {
        return (LENGTH, session);
    }
    if session.c > LAST_NUMBER {
        return (SPENT, session);
    }
    number_ahead(working, session.c);
    stable.copy_from_slice(working);
    session.raise();
    (DONE, session)
}

/// The first act of a sync: working page 0 gets the number of the next epoch. A crash inside
/// a sync finds the working table like this.
pub fn number_ahead(working: &mut [u8], c: u32) {
    let ahead = if broken(Rule::SyncNumber) { 1 } else { 2 };
    put32(working, zero::NUMBER, c + ahead);
}
