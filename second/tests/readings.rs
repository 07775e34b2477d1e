//! Where document 01 leaves something open, a table that shows how it is read here.

mod common;

use common::{by_hand, head, header, inner, leaf, marked, pages, serial, NOW, OLD};
use second::answer::{BADKEY, DAMAGED, DONE, FULL, LENGTH, NONE, PRESENT, SYNCFIRST};
use second::field::{get16, get32, put32};
use second::key::{key, parts};
use second::layout::{header as at, zero, INNER_CAP, LEAF_CAP, LEAF_ENTRY, LEAF_HEADER, PAGE};
use second::page::{self, Header, Page};
use second::report::Mends;
use second::session::Session;
use second::store::Store;
use second::tree::Tree;
use second::walk::descend;
use second::{format, insert, list, lookup, newest, open, sync};

const TOP: u64 = u64::MAX;

/// A leaf with as many keys as it holds: even serials from 2 on.
fn full_leaf(head: Header) -> Page {
    leaf(head, (1..=LEAF_CAP as u32).map(|s| serial(2 * s)))
}

/// A full inner page divided at models above this one; its first entry has all keys of
/// `full_leaf`.
fn full_inner(head: Header, model: u16, child: u16, previous: u16) -> Page {
    let entries: Vec<_> = (0..INNER_CAP as u64)
        .map(|i| match i {
            0 => (0, child, previous),
            i => (key(model + i as u16, 0, 0), 7, 0),
        })
        .collect();
    inner(head, &entries)
}

/// The high that `full_inner` gives its first child.
fn first_high(model: u16) -> u64 {
    key(model + 1, 0, 0) - 1
}

#[test]
fn reading_1_both_tables_lent_to_every_call() {
    let good = common::loaded(5, 1);
    let short = vec![0; 4 * PAGE];
    let session = good.session;
    let (mut w, mut s) = (good.working.clone(), short.clone());
    assert_eq!(format(&w, &mut s), LENGTH);
    assert_eq!(open(&mut w, &mut s).0, LENGTH);
    assert_eq!(insert(&mut w, &s, session, 7, 2, 1, 1).answer, LENGTH);
    assert_eq!(lookup(&mut w, &s, session, 7, 1, 1).answer, LENGTH);
    assert_eq!(newest(&mut w, &s, session, 7, 1).answer, LENGTH);
    assert_eq!(
        list(&mut w, &s, session, 0, &mut [], &mut []).answer,
        LENGTH
    );
    assert_eq!(sync(&mut w, &mut s, session).0, LENGTH);
    assert!(w == good.working && s == short);
}

#[test]
fn reading_2_a_bad_key_comes_before_any_page() {
    let mut store = by_hand(4, 1, 0, &[]);
    store.working[0] = 8;
    assert_eq!(store.lookup(key(7, 1, 1)).0, DAMAGED);
    for bad in [key(0, 1, 1), key(1, 0, 1), key(1, 1, 0)] {
        assert_eq!(store.lookup(bad).0, BADKEY);
        assert_eq!(store.insert(bad, 1), BADKEY);
    }
    assert_eq!(store.newest(0, 1).0, BADKEY);
    assert_eq!(store.newest(1, 0).0, BADKEY);
    store.session.n = 5;
    assert_eq!(store.lookup(0).0, LENGTH, "and after the lengths");
}

#[test]
fn reading_3_refusals_look_at_mended_pages() {
    // The root is lost; its previous page is full but old. Once mended it is touched now.
    let old = full_inner(header(2, 0, TOP), 100, 3, 0);
    let child = full_leaf(header(1, 0, first_high(100)));
    let mut store = by_hand(8, 1, 2, &[(2, old), (3, child)]);
    store.session.free[4..8].fill(true);
    assert_eq!(store.insert(serial(1), 1), SYNCFIRST);
    assert_eq!(head(&store, 1).touched, NOW, "the mend stands");

    // A lost leaf: the key is in its previous page, or the leaf is full once mended.
    let mut store = by_hand(4, 1, 2, &[(2, full_leaf(header(1, 0, TOP)))]);
    assert_eq!(store.insert(serial(2), 1), PRESENT);
    assert_eq!(head(&store, 1).built, NOW);
    assert_eq!(store.insert(serial(1), 1), FULL);
}

#[test]
fn reading_3_six_at_any_level_before_seven() {
    for (touched, answer) in [(NOW, SYNCFIRST), (OLD, FULL)] {
        let top = full_inner(
            Header {
                touched,
                ..header(3, 0, TOP)
            },
            100,
            2,
            0,
        );
        let middle = full_inner(header(2, 0, first_high(100)), 10, 3, 0);
        let child = full_leaf(header(1, 0, first_high(10)));
        let mut store = by_hand(8, 1, 0, &[(1, top), (2, middle), (3, child)]);
        assert_eq!(store.insert(serial(1), 1), answer, "no page is free");
        store.session.free = [true; 128];
        let before = store.clone();
        assert_eq!(store.insert(serial(1), 1), answer, "the root is of kind 3");
        assert!(store == before);
    }
}

#[test]
fn reading_4_marks_move_only_as_stated() {
    // Page 1 is split. It waits, though it is marked free; page 2 is taken, though it waits.
    let mut store = by_hand(6, 1, 0, &[(1, full_leaf(header(1, 0, TOP)))]);
    store.session.free = [true; 128];
    store.session.waiting[2] = true;
    assert_eq!(store.insert(serial(1), 1), DONE);
    let free: Vec<_> = (0..128).filter(|p| ![2, 3, 4].contains(p)).collect();
    assert_eq!(marked(&store.session.free), free);
    assert_eq!(marked(&store.session.waiting), [1, 2]);

    // A leaf born now is freed at once, and goes on waiting if it did.
    let born = Header {
        birth: NOW,
        built: NOW,
        ..header(1, 0, TOP)
    };
    let mut store = by_hand(5, 1, 0, &[(1, full_leaf(born))]);
    put32(&mut store.working, zero::BIRTH, NOW);
    store.session.free[2..5].fill(true);
    store.session.waiting[1] = true;
    assert_eq!(store.insert(serial(1), 1), DONE);
    assert_eq!(marked(&store.session.free), [1]);
    assert_eq!(marked(&store.session.waiting), [1]);
}

#[test]
fn reading_4_sync_moves_marks_of_pages_that_exist() {
    let mut store = common::loaded(5, 1);
    store.session.waiting = [true; 128];
    store.session.free = [false; 128];
    assert_eq!(store.sync(), DONE);
    assert_eq!(marked(&store.session.free), [1, 2, 3, 4]);
    let rest: Vec<_> = (0..128).filter(|p| !(1..5).contains(p)).collect();
    assert_eq!(marked(&store.session.waiting), rest);
}

// With capacities of 2 the root would split.
#[cfg(not(feature = "caps2"))]
#[test]
fn reading_5_a_page_in_use_may_be_marked_free() {
    // Pages 1 and 2 are entered and marked free, page 3 is in use and marked free: taken.
    let root = inner(header(2, 0, TOP), &[(0, 2, 0), (key(101, 0, 0), 3, 0)]);
    let child = full_leaf(header(1, 0, first_high(100)));
    let other = leaf(header(1, key(101, 0, 0), TOP), [key(200, 1, 1)]);
    let mut store = by_hand(6, 1, 0, &[(1, root), (2, child), (3, other)]);
    store.session.free = [true; 128];
    assert_eq!(store.insert(serial(1), 1), DONE);
    assert_eq!(head(&store, 3).birth, NOW);
    let root = page::page(&store.working, 1);
    let children: Vec<_> = page::inner_entries(root).map(|e| e.child).collect();
    assert_eq!(children, [3, 4, 3]);
}

#[test]
fn reading_6_inner_page_built_now_but_not_touched() {
    let root = full_inner(
        Header {
            built: NOW,
            ..header(2, 0, TOP)
        },
        100,
        2,
        0,
    );
    let child = full_leaf(header(1, 0, first_high(100)));
    let mut store = by_hand(9, 1, 3, &[(1, root), (2, child)]);
    store.session.free[4..9].fill(true);
    assert_eq!(store.insert(serial(1), 1), DONE);
    let new_root = page::page(&store.working, 8);
    let previous: Vec<_> = page::inner_entries(new_root).map(|e| e.previous).collect();
    assert_eq!(previous, [1, 1], "the halves name it");
    assert_eq!(get16(&store.working, zero::PREVIOUS), 3, "page 0 doesn't");
    assert_eq!(marked(&store.session.waiting), [1, 2]);
}

#[test]
fn reading_7_in_place_changes_leave_the_rest() {
    let mut page = leaf(header(1, 0, TOP), [serial(3)]);
    page[LEAF_HEADER + LEAF_ENTRY..].fill(0xAA);
    let mut store = by_hand(5, 1, 0, &[(1, page)]);
    store.session.free[2..5].fill(true);
    assert_eq!(store.insert(serial(1), 1), DONE);
    let end = LEAF_HEADER + 2 * LEAF_ENTRY;
    assert!(page::page(&store.working, 1)[end..]
        .iter()
        .all(|&b| b == 0xAA));

    for s in 4.. {
        if marked(&store.session.free).is_empty() {
            break;
        }
        assert_eq!(store.insert(serial(s), s), DONE);
    }
    for built in [2, 3, 4] {
        let head = head(&store, built);
        let end = page::entry_at(head.kind, head.count);
        assert!(page::page(&store.working, built)[end..]
            .iter()
            .all(|&b| b == 0));
    }
}

#[test]
fn reading_8_sync_writes_the_number_whatever_page_zero_is() {
    let mut store = common::loaded(4, 1);
    store.working[..16].fill(0xEE);
    assert_eq!(store.sync(), DONE);
    assert_eq!(get32(&store.working, zero::NUMBER), 4);
    assert!(store.working == store.stable);
    for byte in (0..4).chain(8..16) {
        assert_eq!(store.stable[byte], 0xEE);
    }
}

#[test]
fn reading_9_opening_mends_nothing() {
    let mut store = common::loaded(5, LEAF_CAP as u32);
    assert_eq!(store.sync(), DONE);
    assert_eq!(store.insert(serial(1000), 1), DONE);
    assert_eq!(store.crash(&pages(5, &[0, 4])), DONE);
    assert_eq!(
        page::page(&store.working, 2),
        &[0; PAGE],
        "lost, and left so"
    );
    assert_eq!(
        marked(&store.session.free),
        [],
        "page 1 is previous to both"
    );
    let tree = Tree::good(&store.working, 5).expect("no damage");
    let lost: Vec<_> = tree.lost().map(|node| node.place.child).collect();
    assert_eq!(lost, [2, 3]);
    assert_eq!(tree.entries().count(), LEAF_CAP);
}

/// A root over two leaves; the second is damaged.
fn second_leaf_damaged() -> Store {
    let root = inner(header(2, 0, TOP), &[(0, 2, 0), (serial(10), 3, 0)]);
    let first = leaf(header(1, 0, serial(10) - 1), [serial(1), serial(2)]);
    by_hand(5, 1, 0, &[(1, root), (2, first)])
}

#[test]
fn reading_10_an_empty_list_enters_no_page() {
    let mut store = by_hand(4, 1, 0, &[]);
    assert_eq!(
        store.list(0, &mut [0; 1], &mut [0; 1]),
        (DAMAGED, 0),
        "no root"
    );
    assert_eq!(store.list(0, &mut [], &mut [0; 3]), (DONE, 0));
    assert_eq!(store.list(0, &mut [0; 3], &mut []), (DONE, 0));
    store.working[0] = 0;
    assert_eq!(
        store.list(0, &mut [], &mut []),
        (DAMAGED, 0),
        "page 0 is unfit"
    );
    store.session.n = 5;
    assert_eq!(store.list(0, &mut [], &mut []), (LENGTH, 0));
}

#[test]
fn reading_10_room_is_asked_before_each_page() {
    let mut store = second_leaf_damaged();
    let (mut keys, mut records) = ([0; 3], [0; 3]);
    assert_eq!(store.list(0, &mut keys[..2], &mut records), (DONE, 2));
    assert_eq!(keys, [serial(1), serial(2), 0]);
    assert_eq!(store.list(0, &mut [0; 3], &mut [0; 3]), (DAMAGED, 0));

    // The same with a second leaf that could be mended: with no room left it isn't.
    let mut store = second_leaf_damaged();
    let root = inner(header(2, 0, TOP), &[(0, 2, 0), (serial(10), 3, 4)]);
    *page::page_mut(&mut store.working, 1) = root;
    *page::page_mut(&mut store.working, 4) = leaf(header(1, 0, TOP), [serial(11)]);
    let before = store.clone();
    assert_eq!(store.list(0, &mut [0; 2], &mut [0; 2]), (DONE, 2));
    assert!(store == before);
    assert_eq!(store.list(0, &mut [0; 3], &mut [0; 3]), (DONE, 3));
    assert_eq!(head(&store, 3).built, NOW);
}

#[test]
fn reading_11_newest_enters_every_page_of_the_meter() {
    // Issues of serial 5 lie in both leaves; the lower one is damaged.
    let middle = key(7, 5, 300);
    let root = inner(header(2, 0, TOP), &[(0, 2, 0), (middle, 3, 0)]);
    let upper = leaf(header(1, middle, TOP), [key(7, 5, 400), key(7, 6, 1)]);
    let mut store = by_hand(5, 1, 0, &[(1, root), (3, upper)]);
    assert_eq!(store.newest(7, 5), (DAMAGED, 0, 0));
    assert_eq!(
        store.newest(7, 6),
        (DONE, 1, 1),
        "the damage lies elsewhere"
    );
    assert_eq!(store.newest(7, 7), (NONE, 0, 0));
    let lower = leaf(header(1, 0, middle - 1), [key(7, 5, 1)]);
    *page::page_mut(&mut store.working, 2) = lower;
    assert_eq!(store.newest(7, 5), (DONE, 400, 1));
}

/// All entries from key 0 on, climbing from the root for each leaf.
fn climb(store: &mut Store) -> Vec<u64> {
    let mut keys = Vec::new();
    let mut start = Some(0);
    while let Some(from) = start {
        let untold = &mut Mends::default();
        let way = descend(&mut store.working, &store.session, from, untold).expect("no damage");
        let leaf = page::page(&store.working, way.last().place.child);
        keys.extend(page::leaf_entries(leaf).map(|entry| entry.key));
        start = way.last().place.high.checked_add(1);
    }
    keys
}

#[test]
fn reading_12_climbing_and_recursing_agree() {
    let mut store = common::loaded(16, LEAF_CAP as u32);
    assert_eq!(store.sync(), DONE);
    for s in 1..=LEAF_CAP as u32 {
        let (model, serial, _) = parts(serial(s));
        assert!([DONE, SYNCFIRST].contains(&store.insert(key(model, serial, 2), s)));
    }
    let root = get16(&store.working, zero::ROOT);
    assert_eq!(store.crash(&pages(16, &[0, usize::from(root)])), DONE);
    let mut climbed = store.clone();
    let keys = climb(&mut climbed);
    let (mut listed, mut records) = ([0; 100], [0; 100]);
    let (answer, count) = store.list(0, &mut listed, &mut records);
    assert_eq!(answer, DONE);
    assert_eq!(listed[..count], keys);
    assert_eq!(keys.len(), LEAF_CAP);
    assert!(store == climbed);
}

#[test]
fn a_page_above_as_child_is_damaged() {
    // The child names the root's own number, though the root's bytes would never fit.
    let root = inner(header(2, 0, TOP), &[(0, 1, 2)]);
    let spare = leaf(header(1, 0, TOP), [serial(1)]);
    let mut store = by_hand(4, 1, 0, &[(1, root), (2, spare)]);
    assert_eq!(store.lookup(serial(1)), (DAMAGED, 0));
    assert_eq!(store.open(), DAMAGED);
    assert_eq!(store.session, Session::new(0, 0));
}

#[test]
fn mending_needs_an_entry_at_the_low_asked_for() {
    let top = |low| inner(header(3, 0, TOP), &[(0, 2, 0), (low, 3, 4)]);
    let first = inner(header(2, 0, serial(10) - 1), &[(0, 5, 0)]);
    let previous = inner(header(2, 0, TOP), &[(0, 5, 0), (serial(10), 6, 0)]);
    let last = leaf(header(1, serial(10), TOP), [serial(12)]);
    for (low, answer) in [(serial(10), DONE), (serial(11), DAMAGED)] {
        let pages = [(1, top(low)), (2, first), (4, previous), (6, last)];
        let mut store = by_hand(8, 1, 0, &pages);
        assert_eq!(store.lookup(serial(12)).0, answer);
        assert_eq!(
            get32(&store.working, 3 * PAGE + at::BUILT) == NOW,
            answer == DONE
        );
    }
}
