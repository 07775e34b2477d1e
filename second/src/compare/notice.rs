//! Whether the comparison would notice: one thing is changed in one of the two stores, and a call must tell of it.

use super::{Alike, Both, Counters};
use crate::answer::DONE;
use crate::key::key;
use crate::layout::{zero, LEAF_CAP, PAGE, PAGES_MOST};
use crate::page::{page, page_mut};

type Change = (&'static str, fn(&mut Both));

const CHANGES: [Change; 10] = [
    ("a working byte", |both| {
        both.proved.0.working[2 * PAGE - 1] ^= 1
    }),
    ("a stable byte", |both| {
        both.proved.0.stable[PAGE + 200] ^= 128
    }),
    ("a record", |both| {
        _ = both.proved.0.insert(key(7, 3, 1), 31)
    }),
    ("an entry", |both| _ = both.proved.0.insert(key(7, 4, 1), 4)),
    ("the counter", |both| both.proved.0.session.c += 1),
    ("the total", |both| both.proved.0.session.total += 1),
    ("a free mark", |both| both.proved.0.session.free[1] ^= true),
    ("a waiting mark", |both| {
        both.proved.0.session.waiting[127] ^= true
    }),
    ("the session's length", |both| both.proved.0.session.n += 1),
    ("page 0", |both| both.proved.0.working[zero::ROOT] = 0),
];

/// Every change is told of by a lookup.
pub fn notice() -> Alike<()> {
    for (name, change) in CHANGES {
        let counters = &mut Counters::default();
        let mut both = Both::fresh(8, counters)?;
        both.insert(key(7, 1, 1), 900, counters)?;
        both.lookup(key(7, 1, 1), counters)?;
        if name == "a record" {
            both.own.insert(key(7, 3, 1), 30);
        }
        change(&mut both);
        if both.lookup(key(7, 3, 1), counters).is_ok() {
            return Err(format!("{name} was changed, and nothing told of it"));
        }
    }
    answers_and_lists()?;
    reports()
}

/// A record that only the answer or the list would show.
fn answers_and_lists() -> Alike<()> {
    let counters = &mut Counters::default();
    let mut both = Both::fresh(8, counters)?;
    both.own.insert(key(7, 1, 1), 1);
    both.proved.0.insert(key(7, 1, 1), 2);
    let told = |what: Alike<u32>, word: &str| match what {
        Err(what) if what.contains(word) => Ok(()),
        _ => Err(format!("nothing told of other {word}")),
    };
    told(both.lookup(key(7, 1, 1), counters), "answered")?;
    told(both.newest(7, 1, counters), "answered")?;
    told(both.list(0, 5, 5, counters), "lists")?;
    told(both.write_file(100, counters), "output")?;
    debug_assert_eq!(both.own.lookup(key(7, 1, 1)).0, DONE);
    Ok(())
}

/// A page lost for another reason, which the mend leaves no trace of.
fn reports() -> Alike<()> {
    let counters = &mut Counters::default();
    let mut both = Both::fresh(5, counters)?;
    let last = LEAF_CAP as u32 + 1;
    for serial in 1..last {
        both.insert(key(7, serial, 1), serial, counters)?;
    }
    both.sync(counters)?;
    both.insert(key(7, last, 1), last, counters)?;
    // Page 0 and the new root are written, its leaves on pages 2 and 3 are not.
    let mut written = [false; PAGES_MOST];
    (written[0], written[4]) = (true, true);
    both.crash(&written, false, counters)?;
    let old = *page(&both.own.working, 1);
    *page_mut(&mut both.proved.0.working, 3) = old;
    match both.lookup(key(7, last, 1), counters) {
        Err(what) if what.contains("report") => Ok(()),
        told => Err(format!("nothing told of another reason: {told:?}")),
    }
}
