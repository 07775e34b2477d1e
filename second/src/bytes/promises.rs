//! Demand 1 on arbitrary tables: each call ends with an answer of its own, and keeps what it
//! promises to keep.

use super::other_ways::{Climb, Entering};
use super::Counters;
use crate::answer::{BADKEY, DAMAGED, DONE, LENGTH, NONE, SHORT, SPENT};
use crate::batch::Item;
use crate::field::{get32, put32};
use crate::key::{issues, key, parts, whole};
use crate::layout::{zero, FIRST_NUMBER, LAST_FINAL, LEAF_CAP, PAGE};
use crate::page::{self, Header, LeafEntry, Page};
use crate::read_file::certificates;
use crate::reasons::report;
use crate::report::Report;
use crate::session::Session;
use crate::store::Store;
use crate::tree::Tree;
use crate::walk::{pages, zero_fits};
use crate::without::taken_out;
use crate::{file_of, file_of_set, format, told_by};
use std::ops::RangeInclusive;

pub type Kept = Result<(), String>;

/// Names of counters, by kind.
const MENDED: [&str; 3] = ["mended leaves", "mended kind 2", "mended kind 3"];

fn must(holds: bool, what: &str) -> Kept {
    if holds {
        Ok(())
    } else {
        Err(what.to_string())
    }
}

/// Names of counters, by reason.
const REASONS: [&str; 4] = [
    "reports of an unsound page",
    "reports of another kind",
    "reports of another birth",
    "reports of another range",
];

/// What a walk may change: pages of working, each to a sound one built and touched now, and told of.
fn mends(before: &Store, after: &Store, counters: &mut Counters) -> Kept {
    let mut changed = 0;
    must(before.stable == after.stable, "stable changed")?;
    must(before.session == after.session, "the session changed")?;
    let old = before.working.chunks_exact(PAGE);
    let new = after.working.chunks_exact(PAGE);
    for (number, (old, new)) in old.zip(new).enumerate() {
        if old == new {
            continue;
        }
        let new: &Page = new.try_into().expect("a whole page");
        let head = Header::of(new);
        let c = after.session.c;
        let built = number > 0 && head.built == c && head.touched == c;
        let mended = built && page::sound(new, after.session.n);
        must(mended, "a page changed that wasn't mended")?;
        counters.add(MENDED[usize::from(head.kind) - 1]);
        changed += 1;
    }
    must(
        changed <= after.report.mended,
        "a page was mended that isn't told of",
    )
}

/// Climbing for each leaf comes to the same: bytes, answer and report. What it shows is handed back.
fn climbs(
    before: &Store,
    after: &Store,
    asked: RangeInclusive<u64>,
    room: usize,
    whole: bool,
    counters: &mut Counters,
) -> Result<(u32, Vec<LeafEntry>), String> {
    let mut other = before.clone();
    let climb = Climb::of(&mut other, asked, room, whole);
    must(other == *after, "climbing mends other pages")?;
    let told = after.report;
    must(told == report(&climb.reasons), "climbing tells of others")?;
    if told != Report::default() {
        counters.add(REASONS[told.reason as usize - 1]);
        counters.add_if(climb.answer != DONE, "reports beside a damaged place");
        counters.add_if(told.mended > 1, "reports of two mends and more");
    }
    Ok((climb.answer, climb.entries))
}

pub fn lookup(store: &mut Store, key: u64, counters: &mut Counters) -> Kept {
    let before = store.clone();
    let (answer, record) = store.lookup(key);
    counters.answer("lookup", answer);
    must(answer == DONE || record == 0, "a number beside a refusal")?;
    must((answer == BADKEY) <= !whole(key), "badkey for a whole key")?;
    mends(&before, store, counters)?;
    let asked = key..=key;
    let climbed = climbs(&before, store, asked, usize::MAX, whole(key), counters)?;
    let found = match climbed {
        (DONE, entries) => entries.first().map_or((NONE, 0), |e| (DONE, e.record)),
        (refusal, _) => (refusal, 0),
    };
    must(found == (answer, record), "climbing finds another record")?;
    if [LENGTH, BADKEY].contains(&answer) {
        return must(*store == before, "a page changed");
    }
    let once = store.clone();
    let again = store.lookup(key);
    must(again == (answer, record), "the second lookup differs")?;
    let still = *store == once && store.report == Report::default();
    must(still, "the second lookup changed something")
}

pub fn newest(store: &mut Store, meter: (u16, u32), counters: &mut Counters) -> Kept {
    let (model, serial) = meter;
    let before = store.clone();
    let (answer, issue, record) = store.newest(model, serial);
    counters.answer("newest", answer);
    mends(&before, store, counters)?;
    let asked = issues(model, serial, LAST_FINAL);
    let whole = model != 0 && serial != 0;
    let all = issues(model, serial, u16::MAX);
    let all = Climb::of(&mut before.clone(), all, usize::MAX, whole);
    let lost = all.reasons.len() > store.report.mended as usize;
    counters.add_if(lost, "newest that leaves a lost page of its meter");
    let damaged = all.answer == DAMAGED && answer != DAMAGED;
    counters.add_if(damaged, "newest that leaves a damaged page of its meter");
    let found = match climbs(&before, store, asked, usize::MAX, whole, counters)? {
        (DONE, entries) => entries.last().map_or((NONE, 0, 0), |entry| {
            (DONE, parts(entry.key).2, entry.record)
        }),
        (refusal, _) => (refusal, 0, 0),
    };
    must(
        found == (answer, issue, record),
        "climbing finds another issue",
    )
}

pub fn has_any(store: &mut Store, meter: (u16, u32), counters: &mut Counters) -> Kept {
    let (model, serial) = meter;
    let before = store.clone();
    let (answer, any) = store.has_any(model, serial);
    counters.answer("has_any", answer);
    mends(&before, store, counters)?;
    let asked = issues(model, serial, u16::MAX);
    let whole = model != 0 && serial != 0;
    let all = Climb::of(&mut before.clone(), asked.clone(), usize::MAX, whole);
    let lost = all.reasons.len() > store.report.mended as usize;
    counters.add_if(lost, "has-any that leaves a lost page of its meter");
    let damaged = all.answer == DAMAGED && answer != DAMAGED;
    counters.add_if(damaged, "has-any that leaves a damaged page of its meter");
    let (climbed, first) = climbs(&before, store, asked, 1, whole, counters)?;
    must(climbed == answer, "climbing gives another answer")?;
    must(any != first.is_empty(), "climbing says otherwise")
}

pub fn list(store: &mut Store, start: u64, rooms: [usize; 2], counters: &mut Counters) -> Kept {
    let before = store.clone();
    let (mut keys, mut records) = (vec![3; rooms[0]], vec![4; rooms[1]]);
    let (answer, count) = store.list(start, &mut keys, &mut records);
    counters.answer("list", answer);
    mends(&before, store, counters)?;
    let untouched = keys[count..].iter().all(|key| *key == 3)
        && records[count..].iter().all(|record| *record == 4);
    must(untouched, "a list place changed that isn't filled")?;
    must(answer == DONE || count == 0, "a number beside a refusal")?;
    let room = rooms[0].min(rooms[1]);
    let asked = start..=u64::MAX;
    let (climbed, entries) = climbs(&before, store, asked, room, true, counters)?;
    must(climbed == answer, "climbing gives another answer")?;
    let filled = keys.iter().zip(&records).take(count);
    let listed = entries.iter().map(|entry| (&entry.key, &entry.record));
    must(filled.eq(listed), "climbing lists other entries")
}

/// The file of what climbing shows, with any room; 3 before 9, and mends with both.
pub fn write_file(store: &mut Store, room: usize, counters: &mut Counters) -> Kept {
    let before = store.clone();
    let mut out = vec![0xA5; room];
    let (answer, length) = store.write_file(&mut out);
    counters.answer("write_file", answer);
    mends(&before, store, counters)?;
    let untouched = out[length..].iter().all(|byte| *byte == 0xA5);
    must(untouched, "output beyond the file changed")?;
    must(answer == DONE || length == 0, "a number beside a refusal")?;
    let all = 0..=u64::MAX;
    let (climbed, entries) = climbs(&before, store, all, usize::MAX, true, counters)?;
    let most = LEAF_CAP * usize::from(store.session.n).saturating_sub(1);
    must(entries.len() <= most, "more entries than leaves can hold")?;
    let file = file_of(&entries);
    let expected = match climbed {
        DONE if file.len() > room => SHORT,
        other => other,
    };
    must(expected == answer, "climbing gives another answer")?;
    must(answer != DONE || file == out[..length], "another file")?;
    must(
        answer != DONE || told_by(&file) == Some(entries),
        "the file tells of others",
    )
}

pub fn insert(store: &mut Store, key: u64, record: u32, counters: &mut Counters) -> Kept {
    let before = store.clone();
    let answer = store.insert(key, record);
    counters.answer("insert", answer);
    must(store.stable == before.stable, "stable changed")?;
    let mut looked = before.clone();
    let there = looked.lookup(key).0;
    must(
        store.report == looked.report,
        "insert tells of other mends than lookup",
    )?;
    if answer == DONE {
        must(there == NONE, "an entry was there already")?;
        let total = before.session.total.wrapping_add(1);
        must(store.session.total == total, "another total")?;
        return must(
            store.lookup(key) == (DONE, record),
            "what was inserted isn't found",
        );
    }
    must(
        there != NONE || answer > 5,
        "refused, but nothing is in the way",
    )?;
    mends(&before, store, counters)?;
    must(
        looked == *store,
        "a refused insert changed more than its walk mends",
    )
}

pub fn withdraw(store: &mut Store, key: u64, counters: &mut Counters) -> Kept {
    let mut looked = store.clone();
    let answer = store.withdraw(key);
    counters.answer("withdraw", answer);
    let there = looked.lookup(key).0;
    must(answer == there, "lookup answers otherwise")?;
    let told = store.report == looked.report;
    must(told, "withdraw tells of other mends than lookup")?;
    if answer == DONE {
        let session = &mut looked.session;
        session.total = session.total.wrapping_sub(1);
        let good = taken_out(&looked.working, &store.working, key, session.c);
        must(good, "a withdrawal left other bytes")?;
        looked.working.copy_from_slice(&store.working);
    }
    must(*store == looked, "a withdrawal changed more than its leaf")?;
    let gone = answer != DONE || store.lookup(key) == (NONE, 0);
    must(gone, "what was withdrawn is found")
}

pub fn batch(store: &mut Store, keys: &[u64], counters: &mut Counters) -> Kept {
    let mut single = store.clone();
    let mut items: Vec<Item> = keys
        .iter()
        .map(|&key| Item::new(key, !key as u32))
        .collect();
    let untouched = items.clone();
    let answer = store.batch(&mut items);
    counters.answer("batch", answer);
    if answer != DONE {
        let told = store.report == Report::default();
        let left = *store == single && items == untouched && told;
        return must(left, "a refused batch changed something");
    }
    let mut told = Report::default();
    for (item, &key) in items.iter().zip(keys) {
        let answer = single.insert(key, !key as u32);
        must(item.answer == answer, "an item differs from its insert")?;
        told.join(single.report);
    }
    must(*store == single, "a batch leaves another store")?;
    must(store.report == told, "a batch tells of other mends")
}

/// Accepted exactly if the file of what it tells has the same bytes; then it is a batch of that.
pub fn read_file(store: &mut Store, file: &[u8], counters: &mut Counters) -> Kept {
    let mut single = store.clone();
    let (answer, done, place) = store.read_file(file);
    counters.answer("read_file", answer);
    let told = certificates(file);
    if let Ok(told) = &told {
        let again = file_of_set(&told.iter().copied().collect());
        must(again == file, "a file that no set has was taken")?;
    }
    if answer != DONE {
        let bad = told.err().filter(|_| answer != LENGTH).unwrap_or(0);
        must(place == bad as u64 && done == 0, "another place is told")?;
        let told = store.report == Report::default();
        return must(*store == single && told, "a refused file changed something");
    }
    let told = told.map_err(|_| "a bad file was taken")?;
    let mut items: Vec<Item> = told.iter().map(|&(k, r)| Item::new(k, r)).collect();
    single.batch(&mut items);
    let given = items.iter().filter(|item| item.answer == DONE).count();
    must(given == done as usize, "another number of them is done")?;
    must(*store == single, "a file leaves another store")?;
    must(store.report == single.report, "a file tells of other mends")
}

pub fn open(store: &mut Store, counters: &mut Counters) -> Kept {
    let before = store.clone();
    let answer = store.open();
    counters.answer("open", answer);
    if let Some(n) = pages(&before.working, &before.stable) {
        let expected = Entering::open(&before.stable, n);
        must(
            (answer, store.session) == expected,
            "entering page by page differs",
        )?;
        if only_names_are_wrong(&before.stable, n) {
            must(answer == DAMAGED, "wrong names were taken")?;
            counters.add("openings refused for their names alone");
        }
    } else {
        must(answer == LENGTH, "a wrong length was taken")?;
    }
    if answer != DONE {
        let session = Session::new(0, 0);
        return must(
            *store == Store { session, ..before },
            "a refused opening changed something",
        );
    }
    let mut raised = before.stable;
    put32(&mut raised, zero::NUMBER, store.session.c + 1);
    must(
        store.stable == raised && store.working == raised,
        "opening wrote other bytes",
    )
}

pub fn sync(store: &mut Store, counters: &mut Counters) -> Kept {
    let before = store.clone();
    let answer = store.sync();
    counters.answer("sync", answer);
    if answer != DONE {
        must([LENGTH, SPENT].contains(&answer), "not an answer of sync")?;
        return must(*store == before, "a refused sync changed something");
    }
    let mut written = before.working;
    put32(&mut written, zero::NUMBER, before.session.c + 2);
    must(
        store.working == written && store.stable == written,
        "sync wrote other bytes",
    )?;
    let marks = (0..128).all(|p| {
        let own = 1 <= p && p < usize::from(before.session.n);
        let waits = before.session.waiting[p];
        store.session.free[p] == (before.session.free[p] || own && waits)
            && store.session.waiting[p] == (waits && !own)
    });
    must(
        marks
            && store.session.c == before.session.c + 1
            && store.session.total == before.session.total,
        "sync left another session",
    )
}

pub fn formats(store: &mut Store, counters: &mut Counters) -> Kept {
    let before = store.clone();
    let answer = format(&store.working, &mut store.stable);
    counters.answer("format", answer);
    if answer != DONE {
        return must(
            answer == LENGTH && *store == before,
            "a refused format changed something",
        );
    }
    must(store.working == before.working, "format changed working")?;
    must(
        get32(&store.stable, zero::NUMBER) == FIRST_NUMBER,
        "another first number",
    )?;
    let opened = store.open();
    must(
        opened == DONE && store.lookup(key(7, 1, 1)).0 == NONE,
        "not an empty store",
    )
}

/// Whether only its names are wrong with a table: one child twice, or the previous page of a
/// lost entry as a child.
fn only_names_are_wrong(stable: &[u8], n: u16) -> bool {
    zero_fits(stable, n) && Tree::read(stable, n, 0).is_ok() && Tree::good(stable, n).is_none()
}
