//! Pages: header, entries, soundness, and the few ways a page is changed.

use crate::broken::{broken, Rule};
use crate::field::{get16, get32, get64, put16, put32, put64};
use crate::key;
use crate::layout::{
    entry, header, INNER_CAP, INNER_ENTRY, INNER_HEADER, KIND_LEAF, KIND_TOP, LEAF_CAP, LEAF_ENTRY,
    LEAF_HEADER, PAGE,
};
use std::ops::Range;

pub type Page = [u8; PAGE];

/// A set of page numbers, one bit each.
pub type PageSet = u128;

/// A page of a table.
pub fn page(table: &[u8], number: u16) -> &Page {
    let start = usize::from(number) * PAGE;
    table[start..start + PAGE].try_into().expect("a whole page")
}

/// The same, to be written.
pub fn page_mut(table: &mut [u8], number: u16) -> &mut Page {
    let start = usize::from(number) * PAGE;
    (&mut table[start..start + PAGE])
        .try_into()
        .expect("a whole page")
}

#[derive(Clone, Copy, PartialEq, Eq, Debug)]
pub struct Header {
    pub kind: u16,
    pub count: usize,
    pub birth: u32,
    pub built: u32,
    pub touched: u32,
    pub low: u64,
    pub high: u64,
}

impl Header {
    pub fn of(page: &Page) -> Header {
        Header {
            kind: get16(page, header::KIND),
            count: usize::from(get16(page, header::COUNT)),
            birth: get32(page, header::BIRTH),
            built: get32(page, header::BUILT),
            touched: get32(page, header::TOUCHED),
            low: get64(page, header::LOW),
            high: get64(page, header::HIGH),
        }
    }

    /// A page with this header, zero behind it.
    pub fn page(&self) -> Page {
        let mut page = [0; PAGE];
        put16(&mut page, header::KIND, self.kind);
        put16(&mut page, header::COUNT, self.count as u16);
        put32(&mut page, header::BIRTH, self.birth);
        put32(&mut page, header::BUILT, self.built);
        put32(&mut page, header::TOUCHED, self.touched);
        put64(&mut page, header::LOW, self.low);
        put64(&mut page, header::HIGH, self.high);
        page
    }
}

#[derive(Clone, Copy, PartialEq, Eq, Debug)]
pub struct LeafEntry {
    pub key: u64,
    pub record: u32,
}

#[derive(Clone, Copy, PartialEq, Eq, Debug)]
pub struct InnerEntry {
    pub key: u64,
    pub child: u16,
    pub previous: u16,
    pub birth: u32,
}

pub fn kind(page: &Page) -> u16 {
    get16(page, header::KIND)
}

pub fn count(page: &Page) -> usize {
    usize::from(get16(page, header::COUNT))
}

pub fn header_size(kind: u16) -> usize {
    if kind == KIND_LEAF {
        LEAF_HEADER
    } else {
        INNER_HEADER
    }
}

pub fn entry_size(kind: u16) -> usize {
    if kind == KIND_LEAF {
        LEAF_ENTRY
    } else {
        INNER_ENTRY
    }
}

/// Where an entry of a page of this kind lies, and at the count where the entries end.
pub fn entry_at(kind: u16, index: usize) -> usize {
    header_size(kind) + index * entry_size(kind)
}

pub fn capacity(kind: u16) -> usize {
    if kind == KIND_LEAF {
        LEAF_CAP
    } else {
        INNER_CAP
    }
}

pub fn key_at(page: &Page, index: usize) -> u64 {
    get64(page, entry_at(kind(page), index) + entry::KEY)
}

pub fn leaf_entry(page: &Page, index: usize) -> LeafEntry {
    let at = LEAF_HEADER + index * LEAF_ENTRY;
    LeafEntry {
        key: get64(page, at + entry::KEY),
        record: get32(page, at + entry::RECORD),
    }
}

pub fn inner_entry(page: &Page, index: usize) -> InnerEntry {
    let at = INNER_HEADER + index * INNER_ENTRY;
    InnerEntry {
        key: get64(page, at + entry::KEY),
        child: get16(page, at + entry::CHILD),
        previous: get16(page, at + entry::PREVIOUS),
        birth: get32(page, at + entry::BIRTH),
    }
}

pub fn leaf_entries(page: &Page) -> impl Iterator<Item = LeafEntry> + '_ {
    (0..count(page)).map(|i| leaf_entry(page, i))
}

pub fn inner_entries(page: &Page) -> impl Iterator<Item = InnerEntry> + '_ {
    (0..count(page)).map(|i| inner_entry(page, i))
}

/// How many entries of a sound page have a key below this one.
pub fn below(page: &Page, key: u64) -> usize {
    let kind = kind(page);
    let (mut from, mut to) = (0, count(page));
    while from < to {
        let middle = (from + to) / 2;
        if get64(page, entry_at(kind, middle) + entry::KEY) < key {
            from = middle + 1;
        } else {
            to = middle;
        }
    }
    from
}

/// The entry of a sound leaf that has this key.
pub fn find(page: &Page, key: u64) -> Option<LeafEntry> {
    let index = below(page, key);
    (index < count(page))
        .then(|| leaf_entry(page, index))
        .filter(|entry| entry.key == key)
}

/// The entry of a sound inner page whose child's range holds the key.
pub fn holding(page: &Page, key: u64) -> usize {
    let index = below(page, key);
    if index < count(page) && key_at(page, index) == key {
        index
    } else {
        index - 1
    }
}

/// Sound in a table of n pages: one pass over the entries, without a branch for each, since
/// nearly every page is.
pub fn sound(page: &Page, n: u16) -> bool {
    let head = Header::of(page);
    if head.low > head.high {
        return false;
    }
    if head.kind == KIND_LEAF {
        head.count <= LEAF_CAP && leaf_sound(page, &head)
    } else if (KIND_LEAF + 1..=KIND_TOP).contains(&head.kind) {
        (1..=INNER_CAP).contains(&head.count) && inner_sound(page, &head, n)
    } else {
        false
    }
}

fn leaf_sound(page: &Page, head: &Header) -> bool {
    let entries = &page[LEAF_HEADER..LEAF_HEADER + head.count * LEAF_ENTRY];
    let mut good = true;
    // The first key may equal low. Where low is 0 nothing is lost: no whole key is 0.
    let mut before = head.low.saturating_sub(1);
    for bytes in entries.chunks_exact(LEAF_ENTRY) {
        let key = get64(bytes, entry::KEY);
        good &= (before < key) & (key <= head.high) & key::whole(key);
        before = key;
    }
    good
}

fn inner_sound(page: &Page, head: &Header, n: u16) -> bool {
    let entries = &page[INNER_HEADER..INNER_HEADER + head.count * INNER_ENTRY];
    let mut good = true;
    let mut before = None;
    for bytes in entries.chunks_exact(INNER_ENTRY) {
        let key = get64(bytes, entry::KEY);
        let child = get16(bytes, entry::CHILD);
        good &= before.map_or(key == head.low, |before| before < key)
            & (key <= head.high)
            & (1..n).contains(&child)
            & (get16(bytes, entry::PREVIOUS) < n);
        before = Some(key);
    }
    good
}

/// A page with these of the old page's entries under a new header.
pub fn cut(old: &Page, entries: Range<usize>, head: Header) -> Page {
    let at = |index| entry_at(head.kind, index);
    let count = entries.len();
    let mut page = Header { count, ..head }.page();
    page[at(0)..at(count)].copy_from_slice(&old[at(entries.start)..at(entries.start + count)]);
    page
}

/// Puts an entry of a leaf in key order. The page has room, and the key is new.
pub fn put_leaf(page: &mut Page, new: LeafEntry) {
    let index = below(page, new.key);
    make_room(page, index);
    let at = LEAF_HEADER + index * LEAF_ENTRY;
    put64(page, at + entry::KEY, new.key);
    put32(page, at + entry::RECORD, new.record);
}

/// Takes an entry out of a leaf: later ones move down, and the last place is zero.
pub fn take_leaf(page: &mut Page, index: usize) {
    let count = count(page);
    let (at, end) = (
        LEAF_HEADER + index * LEAF_ENTRY,
        LEAF_HEADER + count * LEAF_ENTRY,
    );
    page.copy_within(at + LEAF_ENTRY..end, at);
    if !broken(Rule::LastPlaceZeroed) {
        page[end - LEAF_ENTRY..end].fill(0);
    }
    put16(page, header::COUNT, (count - 1) as u16);
}

/// One entry of an inner page becomes two. The page has room.
pub fn put_pair(page: &mut Page, index: usize, pair: [InnerEntry; 2]) {
    make_room(page, index);
    write_inner(page, index, pair[0]);
    write_inner(page, index + 1, pair[1]);
}

/// Writes an inner entry over whatever stands there.
pub fn write_inner(page: &mut Page, index: usize, new: InnerEntry) {
    let at = INNER_HEADER + index * INNER_ENTRY;
    put64(page, at + entry::KEY, new.key);
    put16(page, at + entry::CHILD, new.child);
    put16(page, at + entry::PREVIOUS, new.previous);
    put32(page, at + entry::BIRTH, new.birth);
}

/// Moves the entries from `index` on up by one. What lies behind the last one stays.
pub fn make_room(page: &mut Page, index: usize) {
    let (kind, count) = (kind(page), count(page));
    let at = |index| entry_at(kind, index);
    page.copy_within(at(index)..at(count), at(index + 1));
    put16(page, header::COUNT, (count + 1) as u16);
}

pub fn touch(page: &mut Page, c: u32) {
    put32(page, header::TOUCHED, c);
}
