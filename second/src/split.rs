//! Splitting: halves on new pages, and the change that each split asks of the level above.

use crate::broken::{broken, Rule};
use crate::field::{put16, put32};
use crate::layout::{zero, INNER_HALF, LEAF_CAP, LEAF_HALF};
use crate::page::{self, Header, InnerEntry, LeafEntry, Page};
use crate::session::Session;
use crate::way::{Step, Way};

/// Splits the lowest `splits` pages of the way. The pages needed are there.
pub fn split(working: &mut [u8], session: &mut Session, way: &Way, splits: usize, new: LeafEntry) {
    let leaf = way.len() - 1;
    let mut pair = split_leaf(working, session, way, new);
    for depth in (way.len() - splits..leaf).rev() {
        pair = split_inner(working, session, way, depth, pair);
    }
    match way.len() - splits {
        0 => new_root(working, session, way, pair),
        top => {
            let parent = page::page_mut(working, way.at(top - 1).place.child);
            page::put_pair(parent, way.at(top).index, pair);
            if !broken(Rule::ParentTouched) {
                page::touch(parent, session.c);
            }
        }
    }
}

/// Writes both halves to pages taken now and returns the entries that ask for them.
fn place_halves(
    working: &mut [u8],
    session: &mut Session,
    way: &Way,
    halves: [Page; 2],
    previous: u16,
) -> [InnerEntry; 2] {
    halves.map(|half| {
        let child = session.take(way);
        *page::page_mut(working, child) = half;
        InnerEntry {
            key: Header::of(&half).low,
            child,
            previous,
            birth: session.c,
        }
    })
}

/// The headers of the halves: a page divided so that the upper half starts at `middle`.
fn half_heads(old: &Header, middle: u64, c: u32) -> [Header; 2] {
    let new = Header {
        birth: c,
        built: c,
        touched: c,
        ..*old
    };
    [
        Header {
            high: middle - 1,
            ..new
        },
        Header { low: middle, ..new },
    ]
}

fn split_leaf(
    working: &mut [u8],
    session: &mut Session,
    way: &Way,
    new: LeafEntry,
) -> [InnerEntry; 2] {
    let place = way.last().place;
    let old = *page::page(working, place.child);
    let head = Header::of(&old);
    let middle = page::key_at(&old, LEAF_HALF);
    let [lower, upper] = half_heads(&head, middle, session.c);
    let mut halves = [
        page::cut(&old, 0..LEAF_HALF, lower),
        page::cut(&old, LEAF_HALF..LEAF_CAP, upper),
    ];
    page::put_leaf(&mut halves[usize::from(new.key >= middle)], new);

    // A leaf built under this counter is not what the stable table shows here: the halves
    // point back to where that still lies.
    let built_now = head.built == session.c;
    let inherits = built_now && !broken(Rule::LeafInherits);
    let previous = if inherits {
        place.previous
    } else {
        place.child
    };
    let pair = place_halves(working, session, way, halves, previous);
    if leaf_freed(&head, session.c) {
        session.free(place.child);
    } else {
        session.wait(place.child);
    }
    pair
}

/// Whether a split leaf is free at once: no stable page names one born under this counter.
fn leaf_freed(head: &Header, c: u32) -> bool {
    match (head.built == c, head.birth == c) {
        (true, true) => true,
        (true, false) => broken(Rule::MendedLeafWaits),
        (false, _) => broken(Rule::LeafWaits),
    }
}

fn split_inner(
    working: &mut [u8],
    session: &mut Session,
    way: &Way,
    depth: usize,
    pair: [InnerEntry; 2],
) -> [InnerEntry; 2] {
    let number = way.at(depth).place.child;
    let index = way.at(depth + 1).index;
    let old = *page::page(working, number);
    let halves = if broken(Rule::InnerDivided) {
        divided_at_newest(&old, index, pair, session.c)
    } else {
        divided(&old, index, pair, session.c)
    };
    let above = place_halves(working, session, way, halves, number);
    if broken(Rule::InnerWaits) {
        session.free(number);
    } else {
        session.wait(number);
    }
    above
}

/// Divided between two old entries: an old child never straddles both halves.
fn divided(old: &Page, index: usize, pair: [InnerEntry; 2], c: u32) -> [Page; 2] {
    let head = Header::of(old);
    let [lower, upper] = half_heads(&head, page::key_at(old, INNER_HALF), c);
    let mut halves = [
        page::cut(old, 0..INNER_HALF, lower),
        page::cut(old, INNER_HALF..head.count, upper),
    ];
    if index < INNER_HALF {
        page::put_pair(&mut halves[0], index, pair);
    } else {
        page::put_pair(&mut halves[1], index - INNER_HALF, pair);
    }
    halves
}

/// The broken way: the newest key opens the upper half.
fn divided_at_newest(old: &Page, index: usize, pair: [InnerEntry; 2], c: u32) -> [Page; 2] {
    let head = Header::of(old);
    let [lower, upper] = half_heads(&head, pair[1].key, c);
    let mut halves = [
        page::cut(old, 0..index + 1, lower),
        page::cut(old, index + 1..head.count, upper),
    ];
    page::write_inner(&mut halves[0], index, pair[0]);
    page::make_room(&mut halves[1], 0);
    page::write_inner(&mut halves[1], 0, pair[1]);
    halves
}

fn new_root(working: &mut [u8], session: &mut Session, way: &Way, pair: [InnerEntry; 2]) {
    let c = session.c;
    let Step {
        place: old_place, ..
    } = way.at(0);
    let old = Header::of(page::page(working, old_place.child));
    let head = Header {
        kind: old.kind + 1,
        count: 2,
        birth: c,
        built: c,
        touched: c,
        ..old
    };
    let mut root = head.page();
    page::write_inner(&mut root, 0, pair[0]);
    page::write_inner(&mut root, 1, pair[1]);
    let number = session.take(way);
    *page::page_mut(working, number) = root;

    put16(working, zero::ROOT, number);
    put32(working, zero::BIRTH, c);
    if old.built != c || broken(Rule::RootPreviousStays) {
        put16(working, zero::PREVIOUS, old_place.child);
    }
}
