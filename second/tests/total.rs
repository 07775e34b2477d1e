//! How many certificates a store holds, and whether a meter has any.

mod common;

use common::{by_hand, head, header, inner, leaf, loaded, pages, serial, NOW};
use second::answer::{BADKEY, DAMAGED, DONE, FULL, LENGTH, PRESENT, SPENT};
use second::field::put32;
use second::key::key;
use second::layout::{zero, LAST_FINAL, LAST_NUMBER, LEAF_CAP};
use second::report::{Reason, Report};
use second::session::Session;
use second::store::Store;

const TOP: u64 = u64::MAX;

#[test]
fn done_inserts_are_counted() {
    let mut store = Store::fresh(4);
    assert_eq!(store.session.total, 0);
    assert_eq!(store.insert(serial(1), 1), DONE);
    assert_eq!(store.insert(serial(2), 2), DONE);
    assert_eq!(store.session.total, 2);
    assert_eq!(store.insert(serial(1), 1), PRESENT);
    assert_eq!(store.insert(0, 1), BADKEY);
    assert_eq!(store.session.total, 2);
    assert_eq!(store.sync(), DONE);
    assert_eq!(store.session.total, 2, "a sync keeps it");
    assert_eq!(store.open(), DONE);
    assert_eq!(store.session.total, 2);
}

#[test]
fn a_full_store_is_not_counted_on() {
    let mut store = loaded(4, LEAF_CAP as u32);
    assert_eq!(store.insert(serial(99), 1), FULL);
    assert_eq!(store.session.total, LEAF_CAP as u32);
}

#[test]
fn opening_counts_the_tree_as_it_stands() {
    let last = LEAF_CAP as u32 + 1;
    let mut store = loaded(5, last - 1);
    assert_eq!(store.sync(), DONE);
    assert_eq!(store.insert(serial(last), last), DONE);
    assert_eq!(store.session.total, last);
    let mut all = store.clone();
    assert_eq!(all.crash(&pages(5, &[0, 1, 2, 3, 4])), DONE);
    assert_eq!(all.session.total, last);
    assert_eq!(store.crash(&pages(5, &[0, 4])), DONE);
    assert_eq!(store.session.total, last - 1, "both leaves are lost");
    assert_eq!(store.lookup(serial(1)), (DONE, 1));
    assert_eq!(store.session.total, last - 1, "and a mend changes nothing");
}

#[test]
fn a_refused_opening_hands_out_0() {
    let mut store = loaded(4, 2);
    put32(&mut store.stable, zero::NUMBER, LAST_NUMBER + 1);
    assert_eq!(store.open(), SPENT);
    assert_eq!(store.session, Session::new(0, 0));
    assert_eq!(store.session.total, 0);
}

#[test]
fn any_total_is_taken_and_wraps() {
    let mut store = loaded(4, 1);
    store.session.total = u32::MAX;
    assert_eq!(store.insert(serial(2), 2), DONE);
    assert_eq!(store.session.total, 0);
    store.session.total = 77;
    assert_eq!(store.lookup(serial(2)), (DONE, 2));
    assert_eq!(store.sync(), DONE);
    assert_eq!(store.session.total, 77);
}

#[test]
fn has_any_says_yes_or_no() {
    let mut store = Store::fresh(5);
    assert_eq!(store.has_any(7, 5), (DONE, false));
    assert_eq!(store.insert(key(7, 5, LAST_FINAL + 1), 1), DONE);
    assert_eq!(store.has_any(7, 5), (DONE, true), "provisional ones count");
    for (model, serial) in [(7, 4), (7, 6), (6, 5), (8, 5)] {
        assert_eq!(store.has_any(model, serial), (DONE, false));
    }
    assert_eq!(store.insert(key(7, 4, u16::MAX), 1), DONE);
    assert_eq!(store.has_any(7, 4), (DONE, true));
}

#[test]
fn has_any_refuses() {
    let mut store = loaded(5, 1);
    let before = store.clone();
    assert_eq!(store.has_any(0, 1), (BADKEY, false));
    assert_eq!(store.has_any(7, 0), (BADKEY, false));
    store.session.n = 6;
    assert_eq!(store.has_any(0, 1), (LENGTH, false));
    store.session.n = 5;
    assert!(store == before);
    store.working[0] = 0;
    assert_eq!(store.has_any(7, 1), (DAMAGED, false));
    assert_eq!(store.has_any(0, 1), (BADKEY, false));
}

/// Issues of serial 5 lie in three leaves; the first of them has these keys.
fn three_leaves(first: &[u64], previous: u16) -> Store {
    let (second, third) = (key(7, 5, 100), key(7, 5, 200));
    let entries = [(0, 2, 0), (second, 3, 5), (third, 4, previous)];
    let root = inner(header(2, 0, TOP), &entries);
    let lower = leaf(header(1, 0, second - 1), first.iter().copied());
    let old = leaf(header(1, 0, TOP), [second + 1, third + 1]);
    by_hand(8, 1, 0, &[(1, root), (2, lower), (5, old)])
}

// With capacities of 2 the root would be full beyond its room.
#[cfg(not(feature = "caps2"))]
#[test]
fn has_any_stops_with_the_first_one() {
    // In the first leaf: the lost and the damaged one behind it are not entered.
    let mut store = three_leaves(&[key(7, 5, 1)], 0);
    let before = store.clone();
    assert_eq!(store.has_any(7, 5), (DONE, true));
    assert!(store == before);
    assert_eq!(store.report, Report::default());

    // In the second one, which is mended and told of; the damaged one behind it is not entered.
    let mut store = three_leaves(&[serial(1)], 0);
    assert_eq!(store.has_any(7, 5), (DONE, true));
    let told = Report {
        mended: 1,
        reason: Reason::Soundness as u32,
    };
    assert_eq!(store.report, told);
    assert_eq!(head(&store, 3).built, NOW);
    assert_eq!(store.newest(7, 5), (DAMAGED, 0, 0), "newest enters it");
}

// The same here.
#[cfg(not(feature = "caps2"))]
#[test]
fn has_any_goes_on_to_the_meters_last_page() {
    let old = leaf(header(1, 0, TOP), [key(7, 5, 300)]);
    let mut store = three_leaves(&[], 5);
    *second::page::page_mut(&mut store.working, 5) = old;
    assert_eq!(store.has_any(7, 5), (DONE, true));
    assert_eq!(store.report.mended, 2);
    let mut store = three_leaves(&[], 0);
    *second::page::page_mut(&mut store.working, 5) = old;
    assert_eq!(store.has_any(7, 5), (DAMAGED, false));
    assert_eq!(store.report.mended, 1, "a refusal tells of its mends");
    assert_eq!(store.has_any(7, 4), (DONE, false), "the first leaf alone");
}
