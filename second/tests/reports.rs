//! What a call tells of its mends: how many pages, and the first test that the first of them fails.

mod common;

use common::{by_hand, head, header, inner, leaf, loaded, pages, serial, NOW, OLD};
use second::answer::{BADKEY, DAMAGED, DONE, FULL, LENGTH, NONE, PRESENT};
use second::field::{put16, put32, put64};
use second::layout::{header as at, zero, LEAF_CAP};
use second::page::{Header, Page};
use second::report::{Reason, Report};
use second::store::Store;

const TOP: u64 = u64::MAX;

fn told(mended: u32, reason: Reason) -> Report {
    Report {
        mended,
        reason: reason as u32,
    }
}

fn untold() -> Report {
    Report::default()
}

/// A root over a leaf that page 3 can mend; the leaf is as given.
fn over(child: Page) -> Store {
    let root = inner(header(2, 0, TOP), &[(0, 2, 3)]);
    let previous = leaf(header(1, 0, TOP), [serial(1)]);
    by_hand(5, 1, 0, &[(1, root), (2, child), (3, previous)])
}

/// A change that makes a page fail one test.
type Spoil = fn(&mut Page);

const UNSOUND: Spoil = |page| put16(page, at::COUNT, LEAF_CAP as u16 + 1);
const OTHER_BIRTH: Spoil = |page| put32(page, at::BIRTH, OLD + 1);
const OTHER_RANGE: Spoil = |page| put64(page, at::HIGH, TOP - 1);
/// A sound page of kind 2 in place of a leaf.
const OTHER_KIND: Spoil = |page| {
    let whole = Header::of(page);
    *page = inner(
        Header {
            kind: 2,
            count: 0,
            ..whole
        },
        &[(whole.low, 4, 0)],
    );
};

#[test]
fn the_first_test_that_fails() {
    let tests: [(Spoil, Reason); 4] = [
        (OTHER_RANGE, Reason::Range),
        (OTHER_BIRTH, Reason::Birth),
        (OTHER_KIND, Reason::Kind),
        (UNSOUND, Reason::Soundness),
    ];
    // Alone, and with every later test failing as well.
    let mut spoilt = leaf(header(1, 0, TOP), [serial(1)]);
    for (spoil, reason) in tests {
        let mut child = leaf(header(1, 0, TOP), [serial(1)]);
        spoil(&mut child);
        spoil(&mut spoilt);
        for page in [child, spoilt] {
            let mut store = over(page);
            assert_eq!(store.lookup(serial(1)), (DONE, 1));
            assert_eq!(store.report, told(1, reason));
            assert_eq!(store.lookup(serial(1)), (DONE, 1));
            assert_eq!(store.report, untold(), "mended once");
        }
    }
}

#[test]
fn a_root_has_no_kind_to_fail() {
    let previous = leaf(header(1, 0, TOP), [serial(1)]);
    let other = Header {
        birth: OLD + 1,
        ..header(2, 0, TOP)
    };
    let root = inner(other, &[(0, 3, 0)]);
    let mut store = by_hand(5, 1, 2, &[(1, root), (2, previous)]);
    assert_eq!(store.lookup(serial(1)), (DONE, 1));
    assert_eq!(store.report, told(1, Reason::Birth));
    assert_eq!(head(&store, 1).kind, 1);
}

#[test]
fn after_a_crash() {
    let last = LEAF_CAP as u32 + 1;
    let mut store = loaded(5, last - 1);
    assert_eq!(store.sync(), DONE);
    assert_eq!(store.insert(serial(last), last), DONE);
    assert_eq!(store.report, untold());
    assert_eq!(store.crash(&pages(5, &[0, 4])), DONE);
    assert_eq!(store.report, untold(), "opening mends nothing");
    let (mut keys, mut records) = ([0; 41], [0; 41]);
    let mut other = store.clone();
    assert_eq!(other.list(0, &mut keys, &mut records), (DONE, LEAF_CAP));
    assert_eq!(other.report, told(2, Reason::Soundness), "never written");
    assert_eq!(store.list(0, &mut keys[..1], &mut records), (DONE, 1));
    assert_eq!(store.report, told(1, Reason::Soundness), "room for one");
}

#[test]
fn refused_calls_tell_too() {
    let lost = || over([0; 512]);
    let one = told(1, Reason::Soundness);
    let mut store = lost();
    assert_eq!(store.lookup(serial(2)), (NONE, 0));
    assert_eq!(store.report, one);
    let mut store = lost();
    assert_eq!(store.newest(7, 2), (NONE, 0, 0));
    assert_eq!(store.report, one);
    let mut store = lost();
    assert_eq!(store.insert(serial(1), 5), PRESENT);
    assert_eq!(store.report, one);

    let full = leaf(
        header(1, 0, TOP),
        (1..=LEAF_CAP as u32).map(|s| serial(2 * s)),
    );
    let mut store = by_hand(4, 1, 2, &[(2, full)]);
    assert_eq!(store.insert(serial(1), 5), FULL);
    assert_eq!(store.report, one, "a lost root");
}

#[test]
fn mends_before_a_damaged_place_are_told() {
    let entries = [(0, 2, 4), (serial(10), 3, 0)];
    let root = inner(header(2, 0, TOP), &entries);
    let previous = leaf(header(1, 0, TOP), [serial(1), serial(20)]);
    let mut store = by_hand(6, 1, 0, &[(1, root), (4, previous)]);
    let damaged = store.clone().list(serial(10), &mut [0; 9], &mut [0; 9]);
    assert_eq!(damaged, (DAMAGED, 0));
    assert_eq!(
        store.list(0, &mut [0; 9], &mut [0; 9]),
        (DAMAGED, 0),
        "behind the first leaf"
    );
    assert_eq!(store.report, told(1, Reason::Soundness));
    assert_eq!(store.lookup(serial(10)), (DAMAGED, 0));
    assert_eq!(store.report, untold(), "a damaged place is not a mend");
}

#[test]
fn the_first_reason_of_several() {
    let entries = [(0, 2, 4), (serial(10), 3, 4)];
    let root = inner(header(2, 0, TOP), &entries);
    let previous = leaf(header(1, 0, TOP), [serial(1), serial(20)]);
    let young = Header {
        birth: NOW,
        ..header(1, 0, serial(10) - 1)
    };
    let mut store = by_hand(6, 1, 0, &[(1, root), (2, leaf(young, [])), (4, previous)]);
    assert_eq!(store.list(0, &mut [0; 9], &mut [0; 9]), (DONE, 2));
    assert_eq!(store.report, told(2, Reason::Birth), "the other is unsound");
}

#[test]
fn a_page_named_twice_is_mended_twice() {
    let entries = [(0, 2, 4), (serial(10), 2, 4)];
    let root = inner(header(2, 0, TOP), &entries);
    let previous = leaf(header(1, 0, TOP), [serial(1), serial(20)]);
    let mut store = by_hand(6, 1, 0, &[(1, root), (4, previous)]);
    assert_eq!(store.list(0, &mut [0; 9], &mut [0; 9]), (DONE, 2));
    assert_eq!(store.report, told(2, Reason::Soundness));
    let before = store.working.clone();
    assert_eq!(store.list(0, &mut [0; 9], &mut [0; 9]), (DONE, 2));
    assert_eq!(store.report, told(2, Reason::Range), "and again");
    assert!(store.working == before, "it ends as it began");
}

#[test]
fn nothing_is_told_before_a_walk() {
    let mut store = over([0; 512]);
    let before = store.clone();
    store.report = told(7, Reason::Kind);
    assert_eq!(store.list(0, &mut [], &mut [0; 3]), (DONE, 0));
    assert_eq!(store.report, untold(), "an empty list");
    store.report = told(7, Reason::Kind);
    assert_eq!(store.lookup(0).0, BADKEY);
    assert_eq!(store.report, untold());
    store.report = told(7, Reason::Kind);
    assert_eq!(store.newest(0, 1).0, BADKEY);
    assert_eq!(store.report, untold());
    store.session.n = 6;
    store.report = told(7, Reason::Kind);
    assert_eq!(store.insert(serial(1), 1), LENGTH);
    assert_eq!(store.report, untold());
    store.session.n = 5;
    assert!(store == before);
    put16(&mut store.working, zero::ROOT, 0);
    store.report = told(7, Reason::Kind);
    assert_eq!(store.lookup(serial(1)).0, DAMAGED);
    assert_eq!(store.report, untold(), "page 0 is unfit");
}
