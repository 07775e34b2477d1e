//! Tables of arbitrary bytes: random ones, trees put together at random, and both changed a
//! little, so that walks come far before they meet what is wrong.

use crate::field::{get16, put16, put32, put64};
use crate::key::{key, parts, whole};
use crate::layout::{
    entry, header, zero, INNER_ENTRY, INNER_HEADER, KIND_LEAF, KIND_ZERO, LAST_FINAL, LAST_NUMBER,
    LEAF_CAP, PAGE, PAGES_MOST,
};
use crate::page::{self, capacity, page_mut, Header, InnerEntry, LeafEntry, Page};
use crate::rng::Rng;
use crate::session::Session;
use crate::store::Store;
use crate::tree::Tree;
use crate::walk::zero_fits;
use std::ops::Range;

/// Serials of the trees put together here.
const SERIALS: Range<u32> = 0..1 << 20;

/// Few counters, so that they meet by chance.
pub fn counter(rng: &Rng) -> u32 {
    match rng.below(20) {
        0 => LAST_NUMBER - 1 + rng.below(4) as u32,
        1 => rng.next() as u32,
        _ => rng.from(1, 6) as u32,
    }
}

/// A store of arbitrary bytes. Its session may be anything too.
pub fn arbitrary(rng: &Rng) -> Store {
    let n = rng.one_of(&[4, 5, 6, 8, 12, 20, 40, 128]);
    let mut table = vec![0; n * PAGE];
    if rng.once_in(20) {
        table.fill_with(|| rng.next() as u8);
    } else {
        plant(&mut table, n as u16, rng);
    }
    for _ in 0..rng.one_of(&[0, 0, 1, 1, 2, 5]) {
        change(&mut table, n as u16, rng);
    }
    let mut store = Store::of(table.clone(), table, session(n as u16, rng));
    if rng.once_in(3) {
        change(&mut store.working, n as u16, rng);
    }
    if rng.once_in(15) {
        misfit(&mut store, rng);
    }
    store
}

fn session(n: u16, rng: &Rng) -> Session {
    let mut session = Session::new(n, counter(rng));
    session.total = rng.one_of(&[0, u32::MAX, rng.next() as u32]);
    let density = rng.one_of(&[0, 1, 4, 8, 8]);
    for p in 0..PAGES_MOST {
        session.free[p] = rng.below(8) < density;
        session.waiting[p] = rng.once_in(4);
    }
    session
}

/// Makes lengths disagree, or all of them wrong.
fn misfit(store: &mut Store, rng: &Rng) {
    let length = match rng.below(5) {
        0 => store.working.len() + 1,
        1 => store.working.len() - 1,
        2 => PAGE * rng.below(140),
        3 => rng.below(3000),
        _ => store.working.len(),
    };
    match rng.below(4) {
        0 => store.working.resize(length, 7),
        1 => store.stable.resize(length, 7),
        2 => {
            store.working.resize(length, 7);
            store.stable.resize(length, 7);
        }
        _ => store.session.n = rng.below(140) as u16,
    }
}

/// Plants a tree; only some of its entries get a child of their own.
fn plant(table: &mut [u8], n: u16, rng: &Rng) {
    let kind = rng.from(1, 3) as u16;
    let birth = counter(rng);
    let root = plant_page(table, n, kind, birth, SERIALS, rng);
    put16(table, zero::KIND, KIND_ZERO);
    put16(table, zero::N, n);
    put32(table, zero::NUMBER, counter(rng));
    put16(table, zero::ROOT, root);
    put16(table, zero::PREVIOUS, rng.below(usize::from(n)) as u16);
    put32(table, zero::BIRTH, birth);
}

/// A page number: an unused one if it can be.
fn number(table: &[u8], n: u16, rng: &Rng) -> u16 {
    let free: Vec<u16> = (1..n)
        .filter(|&p| page::kind(page::page(table, p)) == 0)
        .collect();
    if free.is_empty() || rng.once_in(40) {
        rng.from(1, usize::from(n) - 1) as u16
    } else {
        rng.one_of(&free)
    }
}

/// The key at which pages are divided at a serial: before its meter, or before its provisional issues.
fn start(serial: u32) -> u64 {
    let provisional = serial.count_ones() % 2 == 1;
    key(7, serial, if provisional { LAST_FINAL + 1 } else { 1 })
}

/// Both ends reach to the ends of all keys.
fn low(serial: u32) -> u64 {
    if serial == SERIALS.start {
        0
    } else {
        start(serial)
    }
}

fn high(serial: u32) -> u64 {
    if serial == SERIALS.end {
        u64::MAX
    } else {
        start(serial) - 1
    }
}

fn plant_page(
    table: &mut [u8],
    n: u16,
    kind: u16,
    birth: u32,
    serials: Range<u32>,
    rng: &Rng,
) -> u16 {
    let child = number(table, n, rng);
    let most = capacity(kind).min(serials.len());
    let least = usize::from(kind != KIND_LEAF);
    // All children of an inner page with few entries are planted.
    let few = rng.from(least, 3).min(most);
    let head = Header {
        kind,
        count: rng.one_of(&[least, few, rng.from(least, most), most, most]),
        birth,
        built: rng.one_of(&[birth, counter(rng)]),
        touched: rng.one_of(&[birth, counter(rng)]),
        low: low(serials.start),
        high: high(serials.end),
    };
    // Taken before its children are planted: they shall choose other pages.
    *page_mut(table, child) = head.page();
    let planted = if kind == KIND_LEAF {
        plant_leaf(head, serials, rng)
    } else {
        plant_inner(table, n, head, serials, rng)
    };
    *page_mut(table, child) = planted;
    child
}

fn plant_leaf(head: Header, serials: Range<u32>, rng: &Rng) -> Page {
    let mut page = Header { count: 0, ..head }.page();
    let step = (serials.len() / head.count.max(1)).max(1) as u32;
    for serial in serials.step_by(step as usize).take(head.count) {
        let provisional = rng.from(1, 3) as u16 + LAST_FINAL;
        let issue = rng.one_of(&[rng.from(1, 3) as u16, LAST_FINAL, provisional]);
        let key = key(7, serial, issue);
        if whole(key) && head.low <= key && key <= head.high {
            let record = rng.next() as u32;
            page::put_leaf(&mut page, LeafEntry { key, record });
        }
    }
    if let Some(key) = last_key(&head, rng).filter(|_| page::count(&page) < LEAF_CAP) {
        let record = rng.next() as u32;
        page::put_leaf(&mut page, LeafEntry { key, record });
    }
    page
}

/// Often a key of the meter at which the next page starts, if it lies in this one.
fn last_key(head: &Header, rng: &Rng) -> Option<u64> {
    let (model, serial, _) = parts(head.high.wrapping_add(1));
    let key = key(model, serial, rng.from(1, 3) as u16);
    let within = whole(key) && head.low <= key && key <= head.high;
    (within && rng.once_in(2)).then_some(key)
}

fn plant_inner(table: &mut [u8], n: u16, head: Header, serials: Range<u32>, rng: &Rng) -> Page {
    let mut page = head.page();
    let step = (serials.len() / head.count) as u32;
    let mut children = 0;
    for index in 0..head.count {
        let from = serials.start + step * index as u32;
        let to = if index + 1 == head.count {
            serials.end
        } else {
            from + step
        };
        let birth = counter(rng);
        let mut entry = InnerEntry {
            key: low(from),
            child: rng.from(1, usize::from(n) - 1) as u16,
            previous: rng.below(usize::from(n)) as u16,
            birth,
        };
        if children < 3 && rng.once_in(2) || head.count < 4 {
            children += 1;
            entry.child = plant_page(table, n, head.kind - 1, birth, from..to, rng);
        }
        page::write_inner(&mut page, index, entry);
    }
    page
}

/// One change: a child that is lost but kept elsewhere, a field, a page, or a byte.
fn change(table: &mut [u8], n: u16, rng: &Rng) {
    match rng.below(8) {
        0..=3 => lose(table, n, rng),
        4..=5 => change_field(table, n, rng),
        6 => {
            let from = *page::page(table, rng.below(usize::from(n)) as u16);
            *page_mut(table, rng.from(1, usize::from(n) - 1) as u16) = from;
        }
        _ => {
            let at = rng.below(table.len());
            table[at] = rng.next() as u8;
        }
    }
}

/// Moves a child's page to its previous page and spoils the child.
fn lose(table: &mut [u8], n: u16, rng: &Rng) {
    let tree = zero_fits(table, n).then(|| Tree::read(table, n, 1));
    let Some(Ok(tree)) = tree else {
        return change_field(table, n, rng);
    };
    let node = &tree.nodes[rng.below(tree.nodes.len())];
    let previous = number(table, n, rng);
    *page_mut(table, previous) = node.shown;
    match node.above {
        None => put16(table, zero::PREVIOUS, previous),
        Some(above) => {
            let parent = &tree.nodes[above];
            let index = page::below(&parent.shown, node.place.low);
            let at = INNER_HEADER + index * INNER_ENTRY + entry::PREVIOUS;
            put16(page_mut(table, parent.place.child), at, previous);
        }
    }
    let child = page_mut(table, node.place.child);
    match rng.below(4) {
        0 => child.fill(0),
        1 => put32(child, header::BIRTH, node.place.birth.wrapping_add(1)),
        2 => put64(child, header::HIGH, rng.next()),
        _ => *child = of_other_kind(Header::of(&node.shown)),
    }
}

/// A sound page that differs in kind.
fn of_other_kind(head: Header) -> Page {
    if head.kind != KIND_LEAF {
        let (kind, count) = (KIND_LEAF, 0);
        return Header {
            kind,
            count,
            ..head
        }
        .page();
    }
    let (kind, count) = (KIND_LEAF + 1, 1);
    let mut page = Header {
        kind,
        count,
        ..head
    }
    .page();
    let entry = InnerEntry {
        key: head.low,
        child: 1,
        previous: 0,
        birth: head.birth,
    };
    page::write_inner(&mut page, 0, entry);
    page
}

/// Changes a field of a page: a header's, an entry's, or page 0's.
fn change_field(table: &mut [u8], n: u16, rng: &Rng) {
    let number = rng.below(usize::from(n)) as u16;
    let small = rng.one_of(&[0, 1, 2, 3, n - 1, n, rng.below(140) as u16, 65_535]);
    let near = get16(page::page(table, number), header::COUNT);
    let page = page_mut(table, number);
    let last = INNER_HEADER + usize::from(near.min(30)).saturating_sub(1) * INNER_ENTRY;
    let at = rng.one_of(&[INNER_HEADER, last]);
    match rng.below(12) {
        0 => put16(page, header::KIND, small),
        1 => put16(page, header::COUNT, small),
        2 => put16(page, header::COUNT, near.wrapping_add(1)),
        3 => put32(page, header::BIRTH, counter(rng)),
        4 => put32(page, header::BUILT, counter(rng)),
        5 => put32(page, header::TOUCHED, counter(rng)),
        6 => put64(
            page,
            header::LOW,
            rng.one_of(&[0, key(7, rng.below(1 << 20) as u32, 1)]),
        ),
        7 => put64(page, header::HIGH, rng.one_of(&[0, u64::MAX, rng.next()])),
        8 => put16(page, at + entry::CHILD, small),
        9 => put16(page, at + entry::PREVIOUS, small),
        10 => put32(page, at + entry::BIRTH, counter(rng)),
        _ => put64(page, at + entry::KEY, rng.next()),
    }
}
