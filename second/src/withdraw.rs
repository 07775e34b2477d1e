//! Withdraw: a certificate is taken out of its leaf.

use crate::answer::{DAMAGED, DONE, NONE};
use crate::broken::{broken, Rule};
use crate::insert::Changed;
use crate::key::{key, whole};
use crate::page;
use crate::report::Mends;
use crate::session::Session;
use crate::walk::{begin, descend};
use crate::way::Way;

/// The walk and its mends are lookup's.
pub fn withdraw(
    working: &mut [u8],
    stable: &[u8],
    mut session: Session,
    model: u16,
    serial: u32,
    issue: u16,
) -> Changed {
    let key = key(model, serial, issue);
    let mut mends = Mends::default();
    let mut answer = begin(working, stable, &session, whole(key));
    if answer == DONE {
        answer = match descend(working, &session, key, &mut mends) {
            Err(_) => DAMAGED,
            Ok(way) => take(working, &mut session, &way, key),
        };
    }
    Changed {
        answer,
        mends: mends.beside(answer),
        session,
    }
}

/// Takes the entry out of the leaf at the way's end. The leaf stays, even if it is empty then.
fn take(working: &mut [u8], session: &mut Session, way: &Way, key: u64) -> u32 {
    let number = way.last().place.child;
    let leaf = page::page_mut(working, number);
    if page::find(leaf, key).is_none() {
        return NONE;
    }
    page::take_leaf(leaf, page::below(leaf, key));
    if !broken(Rule::WithdrawTouches) {
        page::touch(leaf, session.c);
    }
    if page::count(leaf) == 0 && broken(Rule::EmptyLeafStays) {
        session.free(number);
    }
    if !broken(Rule::WithdrawCounts) {
        session.one_less();
    }
    DONE
}
