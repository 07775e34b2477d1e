//! Provisional certificates: issues from 32,768 on, which newest passes over.

mod common;

use common::{by_hand, head, header, inner, leaf, NOW};
use second::answer::{DAMAGED, DONE, NONE};
use second::key::key;
use second::page::Page;
use second::report::Report;
use second::store::Store;

const TOP: u64 = u64::MAX;
/// The last issue that is not provisional.
const LAST: u16 = 32_767;

/// A store with these issues of meter 7, 5, each with its issue as record.
fn with(issues: &[u16]) -> Store {
    let mut store = Store::fresh(16);
    for &issue in issues {
        assert_eq!(store.insert(key(7, 5, issue), issue.into()), DONE);
        assert_eq!(store.sync(), DONE);
    }
    store
}

#[test]
fn the_largest_issue_that_is_not_provisional() {
    let both_sides = [1, LAST, LAST + 1, u16::MAX];
    assert_eq!(with(&both_sides).newest(7, 5), (DONE, LAST, LAST.into()));
    let below = [1, 2, LAST + 1, u16::MAX];
    assert_eq!(with(&below).newest(7, 5), (DONE, 2, 2));
    assert_eq!(with(&[LAST]).newest(7, 5), (DONE, LAST, LAST.into()));
}

#[test]
fn a_meter_with_provisional_ones_only_has_none() {
    assert_eq!(with(&[LAST + 1]).newest(7, 5), (NONE, 0, 0));
    assert_eq!(with(&[40_000, u16::MAX]).newest(7, 5), (NONE, 0, 0));
    // Its neighbours' certificates are not its own.
    let mut store = with(&[40_000]);
    assert_eq!(store.insert(key(7, 4, LAST), 4), DONE);
    assert_eq!(store.insert(key(7, 6, 1), 6), DONE);
    assert_eq!(store.newest(7, 5), (NONE, 0, 0));
}

#[test]
fn lookup_and_list_show_them() {
    let mut store = with(&[1, LAST + 1, u16::MAX]);
    assert_eq!(store.lookup(key(7, 5, LAST + 1)), (DONE, 32_768));
    assert_eq!(store.lookup(key(7, 5, u16::MAX)), (DONE, 65_535));
    let (mut keys, mut records) = ([0; 4], [0; 4]);
    assert_eq!(store.list(0, &mut keys, &mut records), (DONE, 3));
    assert_eq!(records, [1, 32_768, 65_535, 0]);
}

/// A root over two leaves divided at this key; page 4 is previous to the second one, if it is there.
fn divided(at: u64, pages: &[(u16, Page)]) -> Store {
    let root = inner(header(2, 0, TOP), &[(0, 2, 0), (at, 3, 4)]);
    let mut all = vec![(1, root)];
    all.extend(pages);
    by_hand(6, 1, 0, &all)
}

#[test]
fn a_page_of_provisional_ones_is_not_entered() {
    let at = key(7, 5, LAST + 1);
    let first = leaf(header(1, 0, at - 1), [key(7, 5, 3)]);
    let previous = leaf(header(1, 0, TOP), [at]);

    // Lost: neither mended nor told of.
    let mut store = divided(at, &[(2, first), (4, previous)]);
    let before = store.clone();
    assert_eq!(store.newest(7, 5), (DONE, 3, 1));
    assert!(store == before);
    assert_eq!(store.report, Report::default());
    assert_eq!(store.lookup(at), (DONE, 1));
    assert_eq!(head(&store, 3).built, NOW, "lookup mends it");

    // Damaged: not reported.
    let mut store = divided(at, &[(2, first)]);
    assert_eq!(store.newest(7, 5), (DONE, 3, 1));
    assert_eq!(store.newest(7, 4), (NONE, 0, 0));
    assert_eq!(store.lookup(at), (DAMAGED, 0));
}

#[test]
fn a_page_of_one_more_issue_is_entered() {
    let at = key(7, 5, LAST);
    let first = leaf(header(1, 0, at - 1), [key(7, 5, 3)]);
    let previous = leaf(header(1, 0, TOP), [at]);
    let mut store = divided(at, &[(2, first), (4, previous)]);
    assert_eq!(store.newest(7, 5), (DONE, LAST, 1));
    assert_eq!(store.report.mended, 1);
    let mut store = divided(at, &[(2, first)]);
    assert_eq!(store.newest(7, 5), (DAMAGED, 0, 0));
}

#[test]
fn a_page_that_meets_only_issue_0_is_not_entered() {
    let at = key(7, 5, 1);
    let second = leaf(header(1, at, TOP), [key(7, 5, 3)]);
    let mut store = divided(at, &[(3, second)]);
    assert_eq!(store.newest(7, 5), (DONE, 3, 1));
    assert_eq!(store.newest(7, 4), (DAMAGED, 0, 0));
}
