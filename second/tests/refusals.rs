//! Demand 1: what each refusal leaves as it was.

mod common;

use common::{by_hand, head, header, inner, leaf, loaded, serial, NOW};
use second::answer::{BADKEY, DAMAGED, DONE, FULL, LENGTH, NONE, PRESENT, SPENT, SYNCFIRST};
use second::field::{put16, put32};
use second::key::key;
use second::layout::{zero, LAST_NUMBER, LEAF_CAP, PAGE};
use second::page::{page_mut, Page};
use second::session::Session;
use second::store::Store;
use second::{format, has_any, insert, list, lookup, newest, open, sync, withdraw};

/// Lengths of working and stable that no call takes, in bytes.
const LENGTHS: [(usize, usize); 10] = [
    (0, 0),
    (0, 4 * PAGE),
    (4 * PAGE, 0),
    (3 * PAGE, 3 * PAGE),
    (129 * PAGE, 129 * PAGE),
    (4 * PAGE, 5 * PAGE),
    (5 * PAGE, 4 * PAGE),
    (4 * PAGE + 1, 4 * PAGE + 1),
    (4 * PAGE - 1, 4 * PAGE - 1),
    (200 * PAGE, 4 * PAGE),
];

/// A session with every mark set.
fn marked(n: u16) -> Session {
    Session {
        n,
        c: 3,
        total: 9,
        free: [true; 128],
        waiting: [true; 128],
    }
}

/// Makes every call on these tables: all must answer `length` and leave everything.
fn all_refuse(working: &[u8], stable: &[u8], session: Session) {
    let (mut w, mut s) = (working.to_vec(), stable.to_vec());
    let (mut keys, mut records) = ([11; 3], [12; 3]);
    let inserted = insert(&mut w, &s, session, 0, 2, 1, 1);
    assert_eq!((inserted.answer, inserted.session), (LENGTH, session));
    let taken = withdraw(&mut w, &s, session, 7, 1, 0);
    assert_eq!((taken.answer, taken.session), (LENGTH, session));
    let looked = lookup(&mut w, &s, session, 7, 1, 0);
    assert_eq!((looked.answer, looked.record), (LENGTH, 0));
    assert_eq!(looked.session, session);
    let newest = newest(&mut w, &s, session, 7, 0);
    assert_eq!((newest.answer, newest.issue, newest.record), (LENGTH, 0, 0));
    assert_eq!(newest.session, session);
    let has = has_any(&mut w, &s, session, 7, 0);
    assert_eq!((has.answer, has.any), (LENGTH, false));
    assert_eq!(has.session, session);
    let listed = list(&mut w, &s, session, 0, &mut keys, &mut records);
    assert_eq!((listed.answer, listed.count), (LENGTH, 0));
    assert_eq!(listed.session, session);
    assert_eq!((keys, records), ([11; 3], [12; 3]));
    assert_eq!(sync(&mut w, &mut s, session), (LENGTH, session));
    assert!(w == working && s == stable);
}

#[test]
fn lengths() {
    for (w, s) in LENGTHS {
        let (mut working, mut stable) = (vec![1; w], vec![2; s]);
        for n in [0, 4, 5, 128, 129, 200] {
            all_refuse(&working, &stable, marked(n));
        }
        assert_eq!(format(&working, &mut stable), LENGTH);
        let none = Session::new(0, 0);
        assert_eq!(open(&mut working, &mut stable), (LENGTH, none));
        assert!(working == vec![1; w] && stable == vec![2; s]);
    }
}

#[test]
fn session_of_another_length() {
    let store = loaded(5, 2);
    for n in [0, 4, 6, 65_535] {
        all_refuse(&store.working, &store.stable, marked(n));
    }
}

/// Runs a call that must give this answer and leave tables and session as they were.
fn unchanged(store: &mut Store, answer: u32, call: impl Fn(&mut Store) -> u32) {
    let before = store.clone();
    assert_eq!(call(store), answer);
    assert!(*store == before);
}

#[test]
fn bad_keys() {
    let mut store = loaded(5, 2);
    for bad in [key(0, 1, 1), key(7, 0, 1), key(7, 1, 0), 0] {
        unchanged(&mut store, BADKEY, |store| store.insert(bad, 1));
        unchanged(&mut store, BADKEY, |store| store.withdraw(bad));
        unchanged(&mut store, BADKEY, |store| store.lookup(bad).0);
    }
    unchanged(&mut store, BADKEY, |store| store.newest(0, 1).0);
    unchanged(&mut store, BADKEY, |store| store.newest(7, 0).0);
    unchanged(&mut store, BADKEY, |store| store.has_any(0, 1).0);
    unchanged(&mut store, BADKEY, |store| store.has_any(7, 0).0);
}

#[test]
fn twins_are_strangers() {
    let mut store = loaded(5, 1);
    for other in [key(8, 1, 1), key(7, 2, 1), key(7, 1, 2), key(6, 1, 1)] {
        unchanged(&mut store, NONE, |store| store.lookup(other).0);
    }
    assert_eq!(store.newest(7, 2), (NONE, 0, 0));
    assert_eq!(store.newest(8, 1), (NONE, 0, 0));
    unchanged(&mut store, PRESENT, |store| store.insert(serial(1), 77));
    assert_eq!(store.lookup(serial(1)), (DONE, 1));
}

#[test]
fn full_and_present_change_nothing() {
    let mut store = loaded(4, LEAF_CAP as u32);
    unchanged(&mut store, FULL, |store| store.insert(serial(9999), 1));
    unchanged(&mut store, PRESENT, |store| store.insert(serial(1), 1));
    assert_eq!(store.sync(), DONE);
    unchanged(&mut store, FULL, |store| store.insert(serial(9999), 1));
}

#[test]
fn syncfirst_changes_nothing() {
    let mut store = Store::fresh(128);
    let refused = (1..).find(|&s| store.insert(serial(s), s) != DONE);
    let refused = refused.expect("a full parent");
    unchanged(&mut store, SYNCFIRST, |store| {
        store.insert(serial(refused), 1)
    });
    assert_eq!(store.sync(), DONE);
    assert_eq!(store.insert(serial(refused), 1), DONE);
}

/// A root, a lost leaf that can be mended from page 4, and a damaged leaf behind it.
fn lost_then_damaged() -> Store {
    let entries = [(0, 2, 4), (serial(10), 3, 0)];
    let root: Page = inner(header(2, 0, u64::MAX), &entries);
    let previous = leaf(header(1, 0, u64::MAX), [serial(1), serial(20)]);
    by_hand(6, 1, 0, &[(1, root), (4, previous)])
}

#[test]
fn mends_before_a_refusal_stand() {
    let mut store = lost_then_damaged();
    let (stable, session) = (store.stable.clone(), store.session);
    let (mut keys, mut records) = ([11; 9], [12; 9]);
    let listed = store.list(0, &mut keys, &mut records);
    assert_eq!(listed, (DAMAGED, 0));
    assert_eq!((keys, records), ([11; 9], [12; 9]));
    assert_eq!((head(&store, 2).count, head(&store, 2).built), (1, NOW));
    assert!(store.stable == stable && store.session == session);

    let mut inserted = lost_then_damaged();
    assert_eq!(inserted.insert(serial(1), 5), PRESENT);
    assert!(
        inserted.working == store.working,
        "the same page, mended alike"
    );
    assert_eq!(inserted.insert(serial(10), 5), DAMAGED);
    assert!(inserted.working == store.working);
}

#[test]
fn unfit_page_zero() {
    let fields = [
        (zero::KIND, 8),
        (zero::N, 4),
        (zero::N, 6),
        (zero::ROOT, 0),
        (zero::ROOT, 5),
        (zero::PREVIOUS, 5),
        (zero::PREVIOUS, 65_535),
    ];
    for (field, value) in fields {
        let mut store = loaded(5, 2);
        put16(&mut store.working, field, value);
        put16(&mut store.stable, field, value);
        unchanged(&mut store, DAMAGED, |store| store.insert(serial(3), 3));
        unchanged(&mut store, DAMAGED, |store| store.withdraw(serial(1)));
        unchanged(&mut store, DAMAGED, |store| store.lookup(serial(1)).0);
        unchanged(&mut store, DAMAGED, |store| store.newest(7, 1).0);
        unchanged(&mut store, DAMAGED, |store| store.has_any(7, 1).0);
        unchanged(&mut store, DAMAGED, |store| {
            store.list(0, &mut [0; 2], &mut [0; 2]).0
        });
        opening_refused(store, DAMAGED);
    }
}

/// Opens a store that must refuse and leave every byte of both tables.
fn opening_refused(mut store: Store, answer: u32) {
    let (working, stable) = (store.working.clone(), store.stable.clone());
    assert_eq!(store.open(), answer);
    assert!(store.working == working && store.stable == stable);
    assert_eq!(store.session, Session::new(0, 0));
}

#[test]
fn opening_tests() {
    let two = |a: (u64, u16, u16), b: (u64, u16, u16)| inner(header(2, 0, u64::MAX), &[a, b]);
    let low = leaf(header(1, 0, serial(10) - 1), [serial(1)]);
    let high = leaf(header(1, serial(10), u64::MAX), [serial(10)]);
    let whole = leaf(header(1, 0, u64::MAX), [serial(1), serial(10)]);
    let k = serial(10);

    let good = [(1, two((0, 2, 0), (k, 3, 0))), (2, low), (3, high)];
    assert_eq!(by_hand(6, 1, 0, &good).open(), DONE);
    let damaged = [(1, two((0, 2, 0), (k, 3, 0))), (2, low)];
    opening_refused(by_hand(6, 1, 0, &damaged), DAMAGED);
    let twice = [(1, two((0, 2, 4), (k, 2, 4))), (2, low), (4, whole)];
    opening_refused(by_hand(6, 1, 0, &twice), DAMAGED);
    let mended = [(1, two((0, 2, 4), (k, 3, 4))), (2, low), (4, whole)];
    assert_eq!(by_hand(6, 1, 0, &mended).open(), DONE);
    let unread = [(1, two((0, 2, 3), (k, 3, 2))), (2, low), (3, high)];
    assert_eq!(by_hand(6, 1, 0, &unread).open(), DONE);
}

#[test]
fn opening_refuses_a_child_that_is_previous_to_a_lost_entry() {
    // The lost entry's place lies in a range that its sibling's page covers as well.
    let top = inner(header(3, 0, u64::MAX), &[(0, 2, 0), (serial(10), 3, 0)]);
    let left = inner(header(2, 0, serial(10) - 1), &[(0, 4, 5)]);
    let right = inner(header(2, serial(10), u64::MAX), &[(serial(10), 5, 6)]);
    let whole = leaf(header(1, 0, u64::MAX), [serial(1), serial(10)]);
    let pages = [(1, top), (2, left), (3, right), (5, whole), (6, whole)];
    opening_refused(by_hand(8, 1, 0, &pages), DAMAGED);
    let mut apart = by_hand(8, 1, 0, &pages);
    let left = inner(header(2, 0, serial(10) - 1), &[(0, 4, 6)]);
    *page_mut(&mut apart.stable, 2) = left;
    assert_eq!(apart.open(), DONE);
}

#[test]
fn spent() {
    let mut store = loaded(4, 1);
    put32(&mut store.stable, zero::NUMBER, LAST_NUMBER + 1);
    opening_refused(store.clone(), SPENT);
    store.session.c = LAST_NUMBER + 1;
    unchanged(&mut store, SPENT, |store| store.sync());
    store.session.c = LAST_NUMBER;
    assert_eq!(store.sync(), DONE);
    assert_eq!(store.session.c, LAST_NUMBER + 1);
    assert_eq!(store.insert(serial(2), 2), DONE, "reads and inserts go on");
    assert_eq!(store.lookup(serial(2)), (DONE, 2));
    unchanged(&mut store, SPENT, |store| store.sync());
    opening_refused(store, SPENT);
}

#[test]
fn damage_comes_before_spent() {
    let mut store = loaded(4, 1);
    put32(&mut store.stable, zero::NUMBER, u32::MAX);
    store.stable[0] = 0;
    opening_refused(store, DAMAGED);
}

#[test]
fn a_list_writes_only_the_filled_places() {
    let mut store = loaded(5, 3);
    let (mut keys, mut records) = ([11; 5], [12; 6]);
    assert_eq!(store.list(serial(2), &mut keys, &mut records), (DONE, 2));
    assert_eq!(keys, [serial(2), serial(3), 11, 11, 11]);
    assert_eq!(records, [2, 3, 12, 12, 12, 12]);
}
