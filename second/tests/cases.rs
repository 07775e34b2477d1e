//! The bench cases of document 01.
#![cfg(not(any(feature = "caps4", feature = "caps2")))]

mod common;

use common::{head, loaded, marked, pages, serial};
use second::answer::{DONE, FULL, LENGTH, NONE, SPENT, SYNCFIRST};
use second::field::{get16, get32, put32};
use second::key::key;
use second::layout::{zero, PAGE};
use second::store::Store;
use second::{format, open};

fn number(table: &[u8]) -> u32 {
    get32(table, zero::NUMBER)
}

fn root(store: &Store) -> u16 {
    get16(&store.working, zero::ROOT)
}

/// How many of the serials from 1 to `most` are found with their record.
fn found(store: &mut Store, most: u32) -> usize {
    (1..=most)
        .filter(|&s| store.lookup(serial(s)) == (DONE, s))
        .count()
}

#[test]
fn case_1_first_opening() {
    let store = Store::fresh(4);
    assert_eq!(store.session.c, 2);
    assert_eq!(number(&store.working), 3);
    assert_eq!(number(&store.stable), 3);
}

#[test]
fn case_2_key() {
    assert_eq!(key(7, 1, 1), 7 * 2u64.pow(48) + 65_537);
}

#[test]
fn case_3_lengths() {
    for (n, answer) in [(3, LENGTH), (4, DONE), (128, DONE), (129, LENGTH)] {
        let mut working = vec![0; n * PAGE];
        let mut stable = working.clone();
        assert_eq!(format(&working, &mut stable), answer, "format of {n} pages");
        let (opened, session) = open(&mut working, &mut stable);
        assert_eq!(opened, answer, "opening of {n} pages");
        let pages = if answer == DONE { n } else { 0 };
        assert_eq!(usize::from(session.n), pages);
    }
}

#[test]
fn case_4_four_pages_are_full() {
    let mut store = loaded(4, 40);
    assert_eq!(marked(&store.session.free), [2, 3]);
    assert_eq!(store.insert(serial(41), 41), FULL);
}

#[test]
fn case_5_first_split() {
    let store = loaded(5, 41);
    assert_eq!(head(&store, 2).count, 20);
    assert_eq!(head(&store, 3).count, 21);
    assert_eq!(root(&store), 4);
    assert_eq!(marked(&store.session.waiting), [1]);
    assert_eq!(marked(&store.session.free), []);
}

/// 40 inserts, a sync, the 41st, and a crash with these pages.
fn crashed(written: &[usize]) -> Store {
    let mut store = loaded(5, 40);
    assert_eq!(store.sync(), DONE);
    assert_eq!(store.insert(serial(41), 41), DONE);
    assert_eq!(store.crash(&pages(5, written)), DONE);
    store
}

#[test]
fn case_6_root_without_its_leaves() {
    let mut store = crashed(&[0, 4]);
    assert_eq!(store.lookup(serial(21)), (DONE, 21));
    assert_eq!(head(&store, 3).count, 20);
    assert_eq!(head(&store, 3).built, store.session.c);
    assert_eq!(store.lookup(serial(41)), (NONE, 0));
    assert_eq!(found(&mut store, 41), 40);
}

#[test]
fn case_7_page_zero_alone() {
    let mut store = crashed(&[0]);
    assert_eq!(root(&store), 4);
    assert_eq!(found(&mut store, 41), 40);
    assert_eq!((head(&store, 4).kind, head(&store, 4).count), (1, 40));
}

#[test]
fn case_8_leaves_without_their_root() {
    let mut store = crashed(&[2, 3]);
    assert_eq!(root(&store), 1);
    assert_eq!(found(&mut store, 41), 40);
}

#[test]
fn case_9_all_written() {
    let mut store = crashed(&[0, 1, 2, 3, 4]);
    assert_eq!(found(&mut store, 41), 41);
}

#[test]
fn case_10_sync_first() {
    let mut store = loaded(64, 620);
    assert_eq!(store.insert(serial(621), 621), SYNCFIRST);
    assert_eq!(store.sync(), DONE);
    assert_eq!(store.insert(serial(621), 621), DONE);
    assert_eq!(found(&mut store, 621), 621);
}

#[test]
fn case_11_last_number() {
    for (last, answer) in [(4_294_967_293, DONE), (4_294_967_294, SPENT)] {
        let mut store = Store::fresh(4);
        put32(&mut store.stable, zero::NUMBER, last);
        assert_eq!(store.open(), answer);
        let (c, after) = if answer == DONE {
            (last, last + 1)
        } else {
            (0, last)
        };
        assert_eq!(store.session.c, c);
        assert_eq!(number(&store.stable), after);
    }
}
