//! Lookup, newest, has-any and list.

use crate::answer::{DAMAGED, DONE, NONE};
use crate::broken::{broken, Rule};
use crate::key::{issues, key, parts, whole};
use crate::layout::LAST_FINAL;
use crate::page::{self, LeafEntry};
use crate::report::Mends;
use crate::session::Session;
use crate::walk::{begin, descend, Visit};

#[derive(Clone, Copy, PartialEq, Eq, Debug)]
pub struct Looked {
    pub answer: u32,
    pub record: u32,
    pub mends: Mends,
    pub session: Session,
}

#[derive(Clone, Copy, PartialEq, Eq, Debug)]
pub struct Newest {
    pub answer: u32,
    pub issue: u16,
    pub record: u32,
    pub mends: Mends,
    pub session: Session,
}

#[derive(Clone, Copy, PartialEq, Eq, Debug)]
pub struct HasAny {
    pub answer: u32,
    pub any: bool,
    pub mends: Mends,
    pub session: Session,
}

#[derive(Clone, Copy, PartialEq, Eq, Debug)]
pub struct Listed {
    pub answer: u32,
    pub count: usize,
    pub mends: Mends,
    pub session: Session,
}

pub fn lookup(
    working: &mut [u8],
    stable: &[u8],
    session: Session,
    model: u16,
    serial: u32,
    issue: u16,
) -> Looked {
    let key = key(model, serial, issue);
    let mut mends = Mends::default();
    let mut answer = begin(working, stable, &session, whole(key));
    let mut record = 0;
    if answer == DONE {
        (answer, record) = match descend(working, &session, key, &mut mends) {
            Err(_) => (DAMAGED, 0),
            Ok(way) => match page::find(page::page(working, way.last().place.child), key) {
                None => (NONE, 0),
                Some(found) => (DONE, found.record),
            },
        };
    }
    Looked {
        answer,
        record,
        mends: mends.beside(answer),
        session,
    }
}

pub fn newest(
    working: &mut [u8],
    stable: &[u8],
    session: Session,
    model: u16,
    serial: u32,
) -> Newest {
    let mut mends = Mends::default();
    let mut answer = begin(working, stable, &session, model != 0 && serial != 0);
    // Issues above are provisional: their pages are not entered.
    let end = LAST_FINAL + u16::from(broken(Rule::FinalIssues));
    let mut last: Option<LeafEntry> = None;
    if answer == DONE {
        let walked = Visit {
            working,
            session: &session,
            asked: issues(model, serial, end),
            room: usize::MAX,
            mends: &mut mends,
            seen: |entry| last = Some(entry),
        }
        .run();
        answer = match walked {
            Err(_) => DAMAGED,
            Ok(()) if last.is_none() => NONE,
            Ok(()) => DONE,
        };
    }
    let found = last.filter(|_| answer == DONE);
    Newest {
        answer,
        issue: found.map_or(0, |entry| parts(entry.key).2),
        record: found.map_or(0, |entry| entry.record),
        mends: mends.beside(answer),
        session,
    }
}

/// Whether a meter has any certificate, a provisional one too. With room for one the walk ends in the leaf that has the
/// first.
pub fn has_any(
    working: &mut [u8],
    stable: &[u8],
    session: Session,
    model: u16,
    serial: u32,
) -> HasAny {
    let mut mends = Mends::default();
    let mut answer = begin(working, stable, &session, model != 0 && serial != 0);
    let mut any = false;
    if answer == DONE {
        let walked = Visit {
            working,
            session: &session,
            asked: issues(model, serial, u16::MAX),
            room: 1,
            mends: &mut mends,
            seen: |_| any = true,
        }
        .run();
        if walked.is_err() {
            answer = DAMAGED;
        }
    }
    HasAny {
        answer,
        any,
        mends: mends.beside(answer),
        session,
    }
}

/// What the walk shows is kept aside until no damage can come: a refused list writes nothing
/// to the lent lists.
pub fn list(
    working: &mut [u8],
    stable: &[u8],
    session: Session,
    start: u64,
    keys: &mut [u64],
    records: &mut [u32],
) -> Listed {
    let mut mends = Mends::default();
    let mut answer = begin(working, stable, &session, true);
    let mut shown = Vec::new();
    if answer == DONE {
        let walked = Visit {
            working,
            session: &session,
            asked: start..=u64::MAX,
            room: keys.len().min(records.len()),
            mends: &mut mends,
            seen: |entry| shown.push(entry),
        }
        .run();
        if walked.is_err() {
            answer = DAMAGED;
            shown.clear();
        }
    }
    for (index, entry) in shown.iter().enumerate() {
        keys[index] = entry.key;
        records[index] = entry.record;
    }
    Listed {
        answer,
        count: shown.len(),
        mends: mends.beside(answer),
        session,
    }
}
