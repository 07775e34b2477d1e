//! An exchange file read into a store: judged to its last byte, then a batch of its certificates.

use crate::answer::{DONE, FILE, LENGTH};
use crate::batch::{batch, Item};
use crate::broken::{broken, Rule};
use crate::field::{get16, get32};
use crate::key::key;
use crate::report::Mends;
use crate::session::Session;
use crate::walk::session_pages;

/// What the call leaves beside the tables.
pub struct ReadFile {
    pub answer: u32,
    pub done: u32,
    pub place: u64,
    pub mends: Mends,
    pub session: Session,
}

/// The bytes of the next count or item, or where it is cut off.
fn next<'a>(file: &'a [u8], at: &mut usize, width: usize) -> Result<&'a [u8], usize> {
    let bytes = file.get(*at..).and_then(|rest| rest.get(..width));
    let bytes = bytes.ok_or(*at)?;
    *at += width;
    Ok(bytes)
}

/// Whether an item under a place may come after these: above the last, passing over nothing.
fn comes_next(before: &[(usize, u32)], item: (usize, u32), over: usize) -> bool {
    let (place, number) = item;
    let rises = before.last().is_none_or(|last| item > *last);
    let first_open = before.last().map_or(0, |last| last.0 + 1);
    number != 0 && place < over && rises && place <= first_open
}

/// A section under another one of so many items: each of those must get something under it.
fn section(
    file: &[u8],
    at: &mut usize,
    over: usize,
    width: usize,
    item: impl Fn(&[u8]) -> (usize, u32),
) -> Result<Vec<(usize, u32)>, usize> {
    let count = get32(next(file, at, 4)?, 0);
    let mut items = Vec::new();
    for _ in 0..count {
        let begin = *at;
        let one = item(next(file, at, width)?);
        if !comes_next(&items, one, over) {
            return Err(begin);
        }
        items.push(one);
    }
    let reached = items.last().map_or(0, |last| last.0 + 1);
    if reached != over {
        return Err(*at);
    }
    Ok(items)
}

fn models(file: &[u8], at: &mut usize) -> Result<Vec<u16>, usize> {
    let count = get32(next(file, at, 4)?, 0);
    let mut models: Vec<u16> = Vec::new();
    for _ in 0..count {
        let begin = *at;
        let model = get16(next(file, at, 2)?, 0);
        if model <= models.last().copied().unwrap_or(0) {
            return Err(begin);
        }
        models.push(model);
    }
    Ok(models)
}

/// The certificates of a file, in its order, or the byte where its first bad item begins.
pub fn certificates(file: &[u8]) -> Result<Vec<(u64, u32)>, usize> {
    let mut at = 0;
    let models = models(file, &mut at)?;
    let meters = section(file, &mut at, models.len(), 6, |b| {
        (get16(b, 0).into(), get32(b, 2))
    })?;
    let first = at + 4;
    let issues = section(file, &mut at, meters.len(), 10, |b| {
        (get32(b, 0) as usize, get16(b, 4).into())
    })?;
    if at != file.len() {
        return Err(at);
    }
    let told = issues.iter().enumerate().map(|(i, &(place, issue))| {
        let (model, serial) = meters[place];
        let record = get32(file, first + 10 * i + 6);
        (key(models[model], serial, issue as u16), record)
    });
    Ok(told.collect())
}

fn counts(item: &Item) -> bool {
    item.answer == DONE || broken(Rule::FileCountsDone)
}

pub fn read_file(working: &mut [u8], stable: &[u8], session: Session, file: &[u8]) -> ReadFile {
    let refused = |answer, place| ReadFile {
        answer,
        done: 0,
        place,
        mends: Mends::default(),
        session,
    };
    if session_pages(working, stable, &session).is_none() {
        return refused(LENGTH, 0);
    }
    let told = match certificates(file) {
        Ok(told) => told,
        Err(place) => return refused(FILE, place as u64),
    };
    let mut items: Vec<Item> = told.iter().map(|&(k, r)| Item::new(k, r)).collect();
    let left = batch(working, stable, session, &mut items);
    ReadFile {
        answer: left.answer,
        done: items.iter().filter(|item| counts(item)).count() as u32,
        place: 0,
        mends: left.mends,
        session: left.session,
    }
}
