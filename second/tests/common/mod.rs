//! Tables put together by hand.
#![allow(dead_code)]

use second::field::{put16, put32};
use second::key::key;
use second::layout::{zero, PAGE};
use second::page::{self, page_mut, Header, InnerEntry, LeafEntry, Page};
use second::session::Session;
use second::store::Store;

/// Births and tokens of pages put together here, below the counter of `by_hand`.
pub const OLD: u32 = 5;
/// The counter of `by_hand`.
pub const NOW: u32 = 9;

/// The key of a bench case: model 7, issue 1.
pub fn serial(serial: u32) -> u64 {
    key(7, serial, 1)
}

/// A fresh store with serials 1 to `count`, each with its serial as record.
pub fn loaded(n: usize, count: u32) -> Store {
    let mut store = Store::fresh(n);
    for s in 1..=count {
        assert_eq!(store.insert(serial(s), s), 0, "serial {s}");
    }
    store
}

pub fn header(kind: u16, low: u64, high: u64) -> Header {
    Header {
        kind,
        count: 0,
        birth: OLD,
        built: OLD,
        touched: OLD,
        low,
        high,
    }
}

pub fn leaf(head: Header, keys: impl IntoIterator<Item = u64>) -> Page {
    let mut page = head.page();
    for key in keys {
        page::put_leaf(&mut page, LeafEntry { key, record: 1 });
    }
    page
}

/// An inner page from entries of key, child and previous, born OLD.
pub fn inner(head: Header, entries: &[(u64, u16, u16)]) -> Page {
    let count = entries.len();
    let mut page = Header { count, ..head }.page();
    for (index, &(key, child, previous)) in entries.iter().enumerate() {
        let entry = InnerEntry {
            key,
            child,
            previous,
            birth: OLD,
        };
        page::write_inner(&mut page, index, entry);
    }
    page
}

/// A store with these pages in both tables, no marks, and counter NOW.
pub fn by_hand(n: u16, root: u16, previous: u16, pages: &[(u16, Page)]) -> Store {
    let mut table = vec![0; usize::from(n) * PAGE];
    put16(&mut table, zero::KIND, 9);
    put16(&mut table, zero::N, n);
    put32(&mut table, zero::NUMBER, NOW + 1);
    put16(&mut table, zero::ROOT, root);
    put16(&mut table, zero::PREVIOUS, previous);
    put32(&mut table, zero::BIRTH, OLD);
    for (number, page) in pages {
        *page_mut(&mut table, *number) = *page;
    }
    Store::of(table.clone(), table, Session::new(n, NOW))
}

/// The header of a page in the working table.
pub fn head(store: &Store, number: u16) -> Header {
    Header::of(page::page(&store.working, number))
}

pub fn marked(marks: &[bool]) -> Vec<usize> {
    (0..marks.len()).filter(|&p| marks[p]).collect()
}

/// Marks for these pages of n.
pub fn pages(n: usize, numbers: &[usize]) -> Vec<bool> {
    (0..n).map(|p| numbers.contains(&p)).collect()
}
