//! Withdrawn certificates: what a withdrawal leaves, and what a crash can make of it.

mod common;

use common::{by_hand, head, header, inner, leaf, loaded, pages, serial, NOW};
use second::answer::{BADKEY, DAMAGED, DONE, LENGTH, NONE};
use second::layout::{LEAF_CAP, LEAF_ENTRY, LEAF_HALF, LEAF_HEADER};
use second::page::{self, page, Page};
use second::report::{Reason, Report};
use second::store::Store;

const TOP: u64 = u64::MAX;

#[test]
fn later_entries_move_down() {
    let mut full = leaf(header(1, 0, TOP), [serial(1), serial(2)]);
    full[LEAF_HEADER + 2 * LEAF_ENTRY..].fill(0xAA);
    let mut store = by_hand(4, 1, 0, &[(1, full)]);
    store.session.total = 2;
    assert_eq!(store.withdraw(serial(1)), DONE);

    // The old page with the entry out, a zero place, what lay behind, and touched now.
    let mut expected: Page = leaf(header(1, 0, TOP), [serial(2)]);
    page::touch(&mut expected, NOW);
    expected[LEAF_HEADER + 2 * LEAF_ENTRY..].fill(0xAA);
    assert!(page(&store.working, 1) == &expected);
    assert_eq!(store.session.total, 1);
    assert_eq!(store.lookup(serial(1)), (NONE, 0));
    assert_eq!(store.lookup(serial(2)), (DONE, 1));
    assert_eq!(store.report, Report::default());
}

#[test]
fn any_entry_of_a_full_leaf() {
    for gone in 1..=LEAF_CAP as u32 {
        let mut store = loaded(4, LEAF_CAP as u32);
        assert_eq!(store.withdraw(serial(gone)), DONE);
        assert_eq!(head(&store, 1).count, LEAF_CAP - 1);
        for s in 1..=LEAF_CAP as u32 {
            let expected = if s == gone { (NONE, 0) } else { (DONE, s) };
            assert_eq!(store.lookup(serial(s)), expected);
        }
        assert_eq!(store.session.total, LEAF_CAP as u32 - 1);
        assert_eq!(store.insert(serial(gone), 77), DONE, "in the place it left");
        assert_eq!(store.lookup(serial(gone)), (DONE, 77), "the new record");
    }
}

#[test]
fn an_empty_leaf_stays() {
    let last = LEAF_CAP as u32 + 1;
    let mut store = loaded(5, last);
    let free = store.session.free;
    for s in 1..=LEAF_HALF as u32 {
        assert_eq!(store.withdraw(serial(s)), DONE);
    }
    assert_eq!((head(&store, 2).kind, head(&store, 2).count), (1, 0));
    assert_eq!(store.session.free, free, "no page is given back");
    assert_eq!(store.sync(), DONE);
    assert_eq!(store.open(), DONE);
    assert_eq!(store.session.total, last - LEAF_HALF as u32);
    assert_eq!(store.insert(serial(1), 1), DONE);
    assert_eq!(head(&store, 2).count, 1);
}

#[test]
fn refusals_leave_what_they_find() {
    let mut store = loaded(5, 2);
    let before = store.clone();
    assert_eq!(store.withdraw(serial(3)), NONE);
    assert_eq!(store.withdraw(0), BADKEY);
    store.session.n = 6;
    assert_eq!(store.withdraw(serial(1)), LENGTH);
    store.session.n = 5;
    assert!(store == before);
    store.working[0] = 0;
    assert_eq!(store.withdraw(serial(1)), DAMAGED);
    assert_eq!(store.withdraw(0), BADKEY);
}

#[test]
fn the_total_wraps() {
    let mut store = loaded(4, 1);
    store.session.total = 0;
    assert_eq!(store.withdraw(serial(1)), DONE);
    assert_eq!(store.session.total, u32::MAX);
}

#[test]
fn its_walk_mends_as_lookup_does() {
    let root = inner(header(2, 0, TOP), &[(0, 2, 3)]);
    let previous = leaf(header(1, 0, TOP), [serial(1), serial(2)]);
    let store = by_hand(5, 1, 0, &[(1, root), (3, previous)]);
    let told = Report {
        mended: 1,
        reason: Reason::Soundness as u32,
    };
    let (mut taken, mut looked) = (store.clone(), store.clone());
    assert_eq!(taken.withdraw(serial(3)), NONE);
    assert_eq!(looked.lookup(serial(3)), (NONE, 0));
    assert!(taken == looked);
    assert_eq!(taken.report, told);
    let mut taken = store;
    assert_eq!(taken.withdraw(serial(2)), DONE);
    assert_eq!(taken.report, told);
    assert_eq!(head(&taken, 2).count, 1);
}

#[test]
fn a_full_parent_does_not_matter() {
    let mut store = Store::fresh(128);
    let refused = (1..).find(|&s| store.insert(serial(s), s) != DONE);
    let refused = refused.expect("a full parent");
    for s in 1..refused {
        assert_eq!(store.withdraw(serial(s)), DONE);
    }
    assert_eq!(store.session.total, 0);
    let (mut keys, mut records) = ([0; 9], [0; 9]);
    assert_eq!(store.list(0, &mut keys, &mut records), (DONE, 0));
}

/// A leaf full at a sync but for one place; the last key fills it, the next one splits it, and the last one is
/// withdrawn from its half.
fn inserted_split_withdrawn() -> (Store, u64) {
    let last = LEAF_CAP as u32;
    let mut store = loaded(5, last - 1);
    assert_eq!(store.sync(), DONE);
    assert_eq!(store.insert(serial(last), last), DONE);
    assert_eq!(store.insert(serial(last + 1), 1), DONE);
    assert_eq!(store.withdraw(serial(last)), DONE);
    assert_eq!(store.lookup(serial(last)), (NONE, 0));
    (store, serial(last))
}

#[test]
fn a_state_of_the_middle_comes_back() {
    let (store, key) = inserted_split_withdrawn();
    // Absent at the sync and absent now; the old page, written alone, has it.
    let mut old_page = store.clone();
    assert_eq!(old_page.crash(&pages(5, &[1])), DONE);
    assert_eq!(old_page.lookup(key), (DONE, LEAF_CAP as u32));
    for written in [&[][..], &[0, 1, 2, 3, 4]] {
        let mut exact = store.clone();
        assert_eq!(exact.crash(&pages(5, written)), DONE);
        assert_eq!(exact.lookup(key), (NONE, 0));
    }
}

#[test]
fn a_withdrawal_outlasts_a_crash_after_a_sync() {
    let (mut store, key) = inserted_split_withdrawn();
    assert_eq!(store.sync(), DONE);
    assert_eq!(store.insert(serial(99), 99), DONE);
    for chosen in 0..32usize {
        let written: Vec<usize> = (0..5).filter(|page| chosen >> page & 1 == 1).collect();
        let mut crashed = store.clone();
        assert_eq!(crashed.crash(&pages(5, &written)), DONE);
        assert_eq!(crashed.lookup(key), (NONE, 0));
    }
}
