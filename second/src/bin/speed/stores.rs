//! The proved store, once read by its lean calls, and the second program, over tables of the largest size.

use super::subject::Subject;
use second::answer::{DONE, LENGTH, NONE};
use second::key::key;
use second::layout::{PAGE, PAGES_MOST};
#[cfg(store)]
use second::lean::Lean;
#[cfg(store)]
use second::proved::Proved;
use second::store::Store;

/// More than are ever listed.
const ROOM: usize = 2000;

/// The page that has the upper half of the first leaf that splits.
const UPPER: usize = 3;

/// The certificate of this serial is the first one there.
const FIRST_UPPER: u32 = 21;

/// A subject over a store of type `$store`; `$new` makes one of so many pages, and `$reach` is where its tables are.
macro_rules! subject {
    ($subject:ident, $name:expr, $store:ty, $new:expr, $tables:ident => $reach:expr) => {
        pub struct $subject {
            store: $store,
            /// A leaf of 40 was kept and then split, so that each half can be mended.
            split: $store,
            keys: Vec<u64>,
            records: Vec<u32>,
        }

        impl $subject {
            pub fn new() -> $subject {
                let mut split = ($new)(5);
                for serial in 1..=41 {
                    if serial == 41 {
                        assert_eq!(split.sync(), DONE);
                    }
                    assert_eq!(split.insert(key(7, serial, 1), serial), DONE);
                }
                $subject {
                    store: ($new)(PAGES_MOST),
                    split,
                    keys: vec![0; ROOM],
                    records: vec![0; ROOM],
                }
            }
        }

        impl Subject for $subject {
            fn name(&self) -> &'static str {
                $name
            }

            fn clear(&mut self) {
                self.store = ($new)(PAGES_MOST);
            }

            fn fill(&mut self, keys: &[u64], records: &[u32]) {
                for (key, record) in keys.iter().zip(records) {
                    if self.store.insert(*key, *record) != DONE {
                        assert_eq!(self.store.sync(), DONE);
                        assert_eq!(self.store.insert(*key, *record), DONE);
                    }
                }
                assert_eq!(self.store.sync(), DONE);
            }

            fn lookup(&mut self, key: u64) -> Option<u32> {
                match self.store.lookup(key) {
                    (DONE, record) => Some(record),
                    (answer, _) => {
                        assert_eq!(answer, NONE);
                        None
                    }
                }
            }

            fn newest(&mut self, model: u16, serial: u32) -> Option<u32> {
                let (answer, _, record) = self.store.newest(model, serial);
                (answer == DONE).then_some(record)
            }

            fn list(&mut self) -> usize {
                let (answer, count) = self.store.list(0, &mut self.keys, &mut self.records);
                assert_eq!(answer, DONE);
                count as usize
            }

            fn put(&mut self, key: u64, record: u32) {
                assert_eq!(self.store.insert(key, record), DONE);
            }

            fn sync(&mut self) {
                assert_eq!(self.store.sync(), DONE);
            }

            fn open(&mut self) -> bool {
                assert_eq!(self.store.open(), DONE);
                true
            }

            fn mend(&mut self, count: usize) -> bool {
                for _ in 0..count {
                    let $tables = &mut self.split;
                    $reach.working[UPPER * PAGE] = 0;
                    let looked = self.split.lookup(key(7, FIRST_UPPER, 1));
                    assert_eq!(looked, (DONE, FIRST_UPPER));
                }
                true
            }

            fn refused(&mut self, count: usize) -> bool {
                for _ in 0..count {
                    let $tables = &mut self.store;
                    $reach.session.n += 1;
                    let (answer, _) = self.store.lookup(1);
                    let $tables = &mut self.store;
                    $reach.session.n -= 1;
                    assert_eq!(answer, LENGTH);
                }
                true
            }
        }
    };
}

subject!(Second, "second program", Store, Store::fresh, it => it);
#[cfg(store)]
subject!(Proven, "proved store", Proved, |n| Proved(Store::fresh(n)), it => it.0);
#[cfg(store)]
subject!(Leanly, "lean calls", Lean, |n| Lean(Proved(Store::fresh(n))), it => it.0.0);
