//! The exchange file, written: what it holds, and what a refusal leaves.

use second::answer::{DAMAGED, DONE, LENGTH, SHORT};
use second::key::key;
use second::layout::{zero, PAGE};
use second::store::Store;
use second::{file_of, told_by};

fn written(store: &mut Store, room: usize) -> (u32, Vec<u8>) {
    let mut out = vec![0xA5; room];
    let (answer, length) = store.write_file(&mut out);
    assert!(
        out[length..].iter().all(|byte| *byte == 0xA5),
        "output beyond stays"
    );
    assert!(answer == DONE || length == 0, "a length beside a refusal");
    out.truncate(length);
    (answer, out)
}

fn hex(bytes: &[u8]) -> String {
    bytes.iter().map(|byte| format!("{byte:02X}")).collect()
}

fn with(keys: &[(u16, u32, u16, u32)]) -> Store {
    let mut store = Store::fresh(8);
    for &(model, serial, issue, record) in keys {
        assert_eq!(store.insert(key(model, serial, issue), record), DONE);
    }
    store
}

#[test]
fn empty_store() {
    let mut store = Store::fresh(4);
    assert_eq!(written(&mut store, 12), (DONE, vec![0; 12]));
    assert_eq!(written(&mut store, 11).0, SHORT);
    assert_eq!(written(&mut store, 0).0, SHORT);
}

#[test]
fn a_small_store_byte_for_byte() {
    let mut store = with(&[
        (9, 1, 1, 903),
        (7, 2, 1, 902),
        (7, 1, 2, 901),
        (7, 1, 1, 900),
    ]);
    let (answer, file) = written(&mut store, 200);
    assert_eq!(answer, DONE);
    let models = "0200000007000900";
    let meters = "03000000000001000000000002000000010001000000";
    let certificates =
        "0400000000000000010084030000000000000200850300000100000001008603000002000000010087030000";
    assert_eq!(hex(&file), format!("{models}{meters}{certificates}"));
    assert_eq!(written(&mut store, file.len()), (DONE, file.clone()));
    assert_eq!(written(&mut store, file.len() - 1).0, SHORT);
}

#[test]
fn many_models_and_many_issues() {
    let models: Vec<_> = (1..=30)
        .map(|model| (model * 2000, 4_294_967_295, 1, 0))
        .collect();
    let (_, file) = written(&mut with(&models), 4000);
    assert_eq!(file.len(), 12 + 30 * 18);
    // Provisional ones are written.
    let issues: Vec<_> = (1..=30)
        .map(|issue| (65_535, 1, issue * 2184, u32::MAX))
        .collect();
    let (_, file) = written(&mut with(&issues), 4000);
    assert_eq!(file.len(), 12 + 2 + 6 + 30 * 10);
    assert_eq!(told_by(&file).expect("a file").len(), 30);
}

#[test]
fn told_back() {
    let keys: Vec<_> = (1..=60)
        .map(|at| (at % 5 + 1, u32::from(at % 7) + 1, at, u32::from(at)))
        .collect();
    let mut store = with(&keys);
    let (_, file) = written(&mut store, 4000);
    let told = told_by(&file).expect("a file");
    let mut expected: Vec<u64> = keys.iter().map(|k| key(k.0, k.1, k.2)).collect();
    expected.sort();
    assert!(told.iter().map(|entry| entry.key).eq(expected));
    assert_eq!(file_of(&told), file, "writing again gives the same bytes");
}

/// A short output is refused last: the whole tree is entered, so lost pages are mended, and damage answers 3.
#[test]
fn refusals_come_after_the_walk() {
    let mut store = Store::fresh(8);
    for serial in 1..=41 {
        store.insert(key(7, serial, 1), serial);
    }
    store.sync();
    let good = store.clone();
    let leaves: Vec<usize> = (1..8)
        .filter(|page| store.working[page * PAGE] == 1)
        .collect();
    // No page has this kind.
    let spoil = |store: &mut Store, page: usize| store.working[page * PAGE] = 77;
    for page in leaves {
        let mut lost = good.clone();
        spoil(&mut lost, page);
        let (answer, _) = written(&mut lost, 5);
        // A page of the tree is mended from page 1; page 1 itself, split and waiting, is no part of it.
        let changed = page != 1;
        assert_eq!(answer, SHORT, "page {page}");
        assert_eq!(lost.report.mended, u32::from(changed), "page {page}");
        let mut damaged = good.clone();
        spoil(&mut damaged, page);
        spoil(&mut damaged, 1);
        let expected = if changed { DAMAGED } else { SHORT };
        assert_eq!(written(&mut damaged, 5).0, expected, "page {page}");
    }
    let mut other = good.clone();
    other.working[zero::ROOT] = 0;
    assert_eq!(written(&mut other, 0).0, DAMAGED);
    other.session.n += 1;
    assert_eq!(written(&mut other, 0).0, LENGTH);
}
