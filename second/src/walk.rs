//! Walking calls: tests before the walk, entering a place, the way to a key, a range of keys.

use crate::answer::{BADKEY, DAMAGED, DONE, LENGTH};
use crate::broken::{broken, Rule};
use crate::field::get16;
use crate::layout::{zero, KIND_LEAF, KIND_ZERO, PAGE, PAGES_LEAST, PAGES_MOST};
use crate::page::{self, LeafEntry};
use crate::place::Place;
use crate::report::Mends;
use crate::session::Session;
use crate::way::Way;
use std::ops::RangeInclusive;

/// A damaged place was met.
#[derive(Clone, Copy, PartialEq, Eq, Debug)]
pub struct Damaged;

/// The pages of each table, if both have the same good length.
pub fn pages(working: &[u8], stable: &[u8]) -> Option<u16> {
    let n = working.len() / PAGE;
    let good = working.len() == n * PAGE
        && (PAGES_LEAST..=PAGES_MOST).contains(&n)
        && working.len() == stable.len();
    good.then_some(n as u16)
}

/// The same, and the session must agree.
pub fn session_pages(working: &[u8], stable: &[u8], session: &Session) -> Option<u16> {
    pages(working, stable).filter(|&n| n == session.n)
}

/// Whether page 0 is fit to start from.
pub fn zero_fits(table: &[u8], n: u16) -> bool {
    get16(table, zero::KIND) == KIND_ZERO
        && get16(table, zero::N) == n
        && (1..n).contains(&get16(table, zero::ROOT))
        && get16(table, zero::PREVIOUS) < n
}

/// The tests that come before a walk, given whether the key is whole: 0, or the refusal.
pub fn begin(working: &[u8], stable: &[u8], session: &Session, whole: bool) -> u32 {
    match session_pages(working, stable, session) {
        None => LENGTH,
        Some(_) if !whole => BADKEY,
        Some(n) if !zero_fits(working, n) => DAMAGED,
        Some(_) => DONE,
    }
}

/// Enters a place below the pages on the way; a lost child is mended and reported.
pub fn enter(
    working: &mut [u8],
    session: &Session,
    place: &Place,
    way: &Way,
    mends: &mut Mends,
) -> Result<(), Damaged> {
    if way.holds(place.child) {
        return Err(Damaged);
    }
    let Some(reason) = place.fails(page::page(working, place.child), session.n) else {
        return Ok(());
    };
    let source = place.source(working, session.n).ok_or(Damaged)?;
    let mended = place.mended(source, session.c);
    *page::page_mut(working, place.child) = mended;
    mends.add(place.child, reason);
    Ok(())
}

/// Enters the pages whose range holds the key, down to the leaf.
pub fn descend(
    working: &mut [u8],
    session: &Session,
    key: u64,
    mends: &mut Mends,
) -> Result<Way, Damaged> {
    let mut way = Way::new();
    let (mut place, mut index) = (Place::root(working), 0);
    loop {
        enter(working, session, &place, &way, mends)?;
        way.push(place, index);
        let entered = page::page(working, place.child);
        if page::kind(entered) == KIND_LEAF {
            return Ok(way);
        }
        index = page::holding(entered, key);
        place = Place::below(entered, index);
    }
}

/// Enters, in key order, the pages that meet the asked range, and shows their entries in it
/// to `seen` while there is room. Room is asked for before each page.
pub struct Visit<'a, F: FnMut(LeafEntry)> {
    pub working: &'a mut [u8],
    pub session: &'a Session,
    pub asked: RangeInclusive<u64>,
    pub room: usize,
    pub mends: &'a mut Mends,
    pub seen: F,
}

impl<F: FnMut(LeafEntry)> Visit<'_, F> {
    pub fn run(&mut self) -> Result<(), Damaged> {
        let root = Place::root(self.working);
        self.visit(root, &mut Way::new())
    }

    fn visit(&mut self, place: Place, way: &mut Way) -> Result<(), Damaged> {
        let meets = place.low <= *self.asked.end() && *self.asked.start() <= place.high;
        if self.room == 0 || !meets {
            return Ok(());
        }
        enter(self.working, self.session, &place, way, self.mends)?;
        if broken(Rule::FittingLeft) {
            page::touch(page::page_mut(self.working, place.child), self.session.c);
        }
        let entered = page::page(self.working, place.child);
        if page::kind(entered) == KIND_LEAF {
            self.show(place.child);
            return Ok(());
        }
        way.push(place, 0);
        for index in 0..page::count(entered) {
            let below = Place::below(page::page(self.working, place.child), index);
            self.visit(below, way)?;
        }
        way.pop();
        Ok(())
    }

    fn show(&mut self, leaf: u16) {
        let leaf = page::page(self.working, leaf);
        for entry in page::leaf_entries(leaf).skip(page::below(leaf, *self.asked.start())) {
            if self.room == 0 || entry.key > *self.asked.end() {
                return;
            }
            self.room -= 1;
            (self.seen)(entry);
        }
    }
}
