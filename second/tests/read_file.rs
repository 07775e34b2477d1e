//! The exchange file, read: what is accepted, where a bad one is bad, and what goes in.

use second::answer::{DONE, FILE, LENGTH};
use second::bytes::files::spoilt;
use second::file_of_set;
use second::key::key;
use second::read_file::certificates;
use second::rng::Rng;
use second::store::Store;
use std::collections::BTreeMap;

/// Two models, three meters, four certificates. Counts at 0, 8 and 30; items from 4, 12 and 34; the end at 74.
fn some_set() -> BTreeMap<u64, u32> {
    BTreeMap::from([
        (key(7, 1, 1), 900),
        (key(7, 1, 2), 901),
        (key(7, 5, 1), 0),
        (key(9, 1, 40_000), u32::MAX),
    ])
}

fn bad_at(change: impl Fn(&mut Vec<u8>)) -> Result<Vec<(u64, u32)>, usize> {
    let mut file = file_of_set(&some_set());
    change(&mut file);
    certificates(&file)
}

#[test]
fn a_good_file_tells_of_its_set() {
    let set = some_set();
    let file = file_of_set(&set);
    assert_eq!(file.len(), 74);
    let told: BTreeMap<u64, u32> = certificates(&file)
        .expect("a good file")
        .into_iter()
        .collect();
    assert_eq!(told, set);
    assert_eq!(file_of_set(&BTreeMap::new()), [0; 12]);
    assert_eq!(certificates(&[0; 12]), Ok(Vec::new()));
}

#[test]
fn cut_at_each_byte() {
    let file = file_of_set(&some_set());
    let items = [0, 4, 6, 8, 12, 18, 24, 30, 34, 44, 54, 64, 74];
    for length in 0..file.len() {
        let begin = items.iter().rev().find(|&&begin| begin <= length);
        assert_eq!(certificates(&file[..length]).err().as_ref(), begin);
    }
}

#[test]
fn surplus_is_bad_itself() {
    assert_eq!(bad_at(|file| file.push(0)), Err(74));
    assert_eq!(bad_at(|file| file.extend([1, 0, 0, 0, 7])), Err(74));
}

#[test]
fn zeroes() {
    assert_eq!(bad_at(|file| file[4] = 0), Err(4));
    assert_eq!(bad_at(|file| file[20] = 0), Err(18));
    assert_eq!(bad_at(|file| file[38] = 0), Err(34));
}

#[test]
fn beyond_the_section() {
    assert_eq!(bad_at(|file| file[24] = 2), Err(24));
    assert_eq!(bad_at(|file| file[64] = 3), Err(64));
}

#[test]
fn not_above_the_one_before() {
    assert_eq!(bad_at(|file| file[6] = 7), Err(6));
    assert_eq!(bad_at(|file| file[20] = 1), Err(18));
    assert_eq!(bad_at(|file| file[48] = 1), Err(44));
    assert_eq!(bad_at(|file| file[54] = 0), Err(54));
}

#[test]
fn passes_over() {
    assert_eq!(bad_at(|file| file[12] = 1), Err(12));
    assert_eq!(bad_at(|file| file[34] = 1), Err(34));
    assert_eq!(bad_at(|file| file[54] = 2), Err(54));
}

#[test]
fn nothing_under_it_at_the_end() {
    // One meter fewer: the model 9 has none. One certificate fewer: the last meter has none.
    let meter = |file: &mut Vec<u8>| {
        file.drain(24..30);
        file[8] = 2;
    };
    assert_eq!(bad_at(meter), Err(24));
    let certificate = |file: &mut Vec<u8>| {
        file.truncate(64);
        file[30] = 3;
    };
    assert_eq!(bad_at(certificate), Err(64));
}

/// What stands behind the section's items is taken for one more, or there is nothing.
#[test]
fn a_count_beyond_the_file_is_not_bad_itself() {
    for (count, begin) in [(0, 8), (8, 30), (30, 74)] {
        assert_eq!(bad_at(|file| file[count..count + 4].fill(0xFF)), Err(begin));
    }
}

/// Accepted exactly if the file of what it tells has the same bytes.
#[test]
fn random_edits() {
    let (mut good, mut bad) = (0, 0);
    for seed in 0..20_000 {
        let rng = Rng::new(seed);
        let keys = (0..rng.below(9)).map(|_| {
            key(
                rng.from(1, 3) as u16,
                rng.from(1, 3) as u32,
                rng.from(1, 3) as u16,
            )
        });
        let set: BTreeMap<u64, u32> = keys.map(|key| (key, rng.next() as u32)).collect();
        let file = spoilt(&set, &rng);
        match certificates(&file) {
            Ok(told) => {
                good += 1;
                assert_eq!(file_of_set(&told.into_iter().collect()), file);
            }
            Err(place) => {
                bad += 1;
                assert!(place <= file.len());
            }
        }
    }
    assert!(good > 1000 && bad > 1000, "{good} {bad}");
}

#[test]
fn the_call() {
    let file = file_of_set(&some_set());
    let mut store = Store::fresh(8);
    assert_eq!(store.read_file(&file), (DONE, 4, 0));
    assert_eq!(store.read_file(&file), (DONE, 0, 0));
    assert_eq!(store.session.total, 4);
    let before = store.clone();
    assert_eq!(store.read_file(&file[..70]), (FILE, 0, 64));
    assert_eq!(store, before);
    store.stable.truncate(512);
    assert_eq!(store.read_file(&file[..70]), (LENGTH, 0, 0));
}

/// A store's file, read into a fresh one, gives the same listing if all are done.
#[test]
fn round_trip() {
    let mut store = Store::fresh(64);
    let set: BTreeMap<u64, u32> = (1..=500).map(|i| (key(7, i, 1), i)).collect();
    assert_eq!(store.read_file(&file_of_set(&set)), (DONE, 500, 0));
    let (mut keys, mut records) = (vec![0; 600], vec![0; 600]);
    assert_eq!(store.list(0, &mut keys, &mut records), (DONE, 500));
    let shown: BTreeMap<u64, u32> = keys.into_iter().zip(records).take(500).collect();
    assert_eq!(shown, set);
    let mut other = Store::fresh(64);
    assert_eq!(other.read_file(&file_of_set(&shown)), (DONE, 500, 0));
    assert_eq!(other, store);
}
