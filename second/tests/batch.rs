//! A delivery in one call leaves what single inserts in list order leave.

mod common;

use common::{by_hand, header, leaf, loaded, serial};
use second::answer::{BADKEY, DAMAGED, DONE, FULL, LENGTH, PRESENT, SYNCFIRST};
use second::batch::{Item, UNANSWERED};
use second::bytes::{some_key, tables::arbitrary};
use second::layout::LEAF_CAP;
use second::report::{Reason, Report};
use second::rng::Rng;
use second::store::Store;

/// The batch and single inserts on copies: answers, tables, session and report must be alike. The batch's answers.
fn delivered(store: &mut Store, keys: &[u64]) -> Vec<u32> {
    let mut items: Vec<Item> = keys
        .iter()
        .map(|&key| Item::new(key, !key as u32))
        .collect();
    let mut single = store.clone();
    let answers: Vec<u32> = keys
        .iter()
        .map(|&key| single.insert(key, !key as u32))
        .collect();
    assert_eq!(store.batch(&mut items), DONE);
    let given: Vec<u32> = items.iter().map(|item| item.answer).collect();
    assert_eq!(given, answers);
    assert!(*store == single);
    for (item, &key) in items.iter().zip(keys) {
        let answer = item.answer;
        let asked = Item {
            answer,
            ..Item::new(key, !key as u32)
        };
        assert_eq!(*item, asked, "only the answer is filled in");
    }
    given
}

#[test]
fn lists_of_all_lengths() {
    for length in [0, 1, 40, 2000] {
        let mut store = Store::fresh(128);
        let keys: Vec<u64> = (1..=length).map(serial).collect();
        let answers = delivered(&mut store, &keys);
        let done = answers.iter().filter(|&&answer| answer == DONE).count();
        assert_eq!(store.session.total as usize, done);
    }
}

#[test]
fn bad_keys_and_repeats() {
    let mut store = loaded(16, 1);
    let keys = [serial(1), 0, serial(2), serial(2), 1 << 48, serial(3)];
    let answers = delivered(&mut store, &keys);
    assert_eq!(answers[..5], [PRESENT, BADKEY, DONE, PRESENT, BADKEY]);
}

#[test]
fn items_after_a_syncfirst_are_tried() {
    let mut store = Store::fresh(128);
    let refused = (1..).find(|&s| store.insert(serial(s), s) != DONE);
    let refused = refused.expect("a full parent");
    let keys = [serial(refused), 0, serial(1), serial(refused + 1)];
    let answers = delivered(&mut store, &keys);
    assert_eq!(answers, [SYNCFIRST, BADKEY, PRESENT, SYNCFIRST]);
}

// With capacities of 2 the answer before it is syncfirst.
#[cfg(not(feature = "caps2"))]
#[test]
fn done_after_a_syncfirst() {
    // Rising serials fill the root with half-full leaves; the last leaf is full, the first has room.
    let mut store = Store::fresh(128);
    let refused = (1..).find(|&s| store.insert(serial(2 * s), s) != DONE);
    let refused = refused.expect("a full parent");
    let keys = [serial(2 * refused), serial(1), serial(3)];
    assert_eq!(delivered(&mut store, &keys), [SYNCFIRST, DONE, DONE]);
}

#[test]
fn a_full_store() {
    let mut store = loaded(4, LEAF_CAP as u32);
    let keys = [serial(99), serial(1), serial(100)];
    assert_eq!(delivered(&mut store, &keys), [FULL, PRESENT, FULL]);
}

#[test]
fn a_wrong_length_leaves_every_item() {
    let mut store = loaded(5, 1);
    store.session.n = 6;
    let before = store.clone();
    let mut items = [Item::new(serial(2), 2), Item::new(0, 0)];
    assert_eq!(store.batch(&mut items), LENGTH);
    assert!(items.iter().all(|item| item.answer == UNANSWERED));
    assert_eq!(store.batch(&mut []), LENGTH, "an empty one too");
    assert!(store == before);
}

#[test]
fn an_unfit_page_zero_is_the_items_affair() {
    let mut store = loaded(5, 1);
    store.working[0] = 0;
    let before = store.clone();
    assert_eq!(delivered(&mut store, &[]), [0; 0]);
    assert_eq!(delivered(&mut store, &[serial(2), 0]), [DAMAGED, BADKEY]);
    assert!(store == before);
}

#[test]
fn mends_of_all_items_are_told_together() {
    let previous = leaf(header(1, 0, u64::MAX), [serial(1)]);
    let mut store = by_hand(5, 1, 2, &[(2, previous)]);
    let keys = [0, serial(1), serial(2)];
    assert_eq!(delivered(&mut store, &keys), [BADKEY, PRESENT, DONE]);
    let told = Report {
        mended: 1,
        reason: Reason::Soundness as u32,
    };
    assert_eq!(store.report, told);
    assert_eq!(delivered(&mut store, &[serial(1)]), [PRESENT]);
    assert_eq!(store.report, Report::default());
}

#[test]
fn a_sum_of_mends_wraps_and_keeps_the_first_reason() {
    let one = |mended, reason| Report { mended, reason };
    let mut sum = Report::default();
    sum.join(Report::default());
    assert_eq!(sum, Report::default());
    sum.join(one(u32::MAX, Reason::Birth as u32));
    sum.join(one(1, Reason::Kind as u32));
    assert_eq!(sum, one(0, Reason::Birth as u32));
    sum.join(one(2, Reason::Soundness as u32));
    assert_eq!(sum, one(2, Reason::Birth as u32));
}

#[test]
fn arbitrary_tables() {
    for seed in 0..2000 {
        let rng = Rng::new(seed);
        let mut store = arbitrary(&rng);
        let length = if seed % 100 == 0 { 2000 } else { 40 };
        let keys: Vec<u64> = (0..length).map(|_| some_key(&store, &rng)).collect();
        if store.clone().batch(&mut []) == DONE {
            delivered(&mut store, &keys);
        }
    }
}
