//! Case 10: rising keys without a sync.

use super::{Alike, Both, Counters};
use crate::answer::{DONE, SYNCFIRST};
use crate::key::key;

const PAGES: usize = 64;
const BEFORE: u32 = 620;

/// With 64 pages 620 inserts are done, the 621st answers 6, and after a sync it is done.
pub fn rising(counters: &mut Counters) -> Alike<()> {
    let mut both = Both::fresh(PAGES, counters)?;
    let mut expect = |serial: u32, expected: u32, both: &mut Both| {
        let answer = both.insert(key(7, serial, 1), serial, counters)?;
        if answer == expected {
            Ok(())
        } else {
            Err(format!("case 10: insert {serial} answers {answer}"))
        }
    };
    for serial in 1..=BEFORE {
        expect(serial, DONE, &mut both)?;
    }
    expect(BEFORE + 1, SYNCFIRST, &mut both)?;
    both.sync(&mut Counters::default())?;
    expect(BEFORE + 1, DONE, &mut both)
}
