//! Both tables and the session in one hand, for those who drive the calls.

use crate::key::parts;
use crate::layout::PAGE;
use crate::page::PageSet;
use crate::report::{Mends, Report};
use crate::session::Session;
use crate::Item;
use crate::{
    batch, crash, format, has_any, insert, list, lookup, newest, open, read_file, sync, withdraw,
    write_file,
};

#[derive(Clone, Debug)]
pub struct Store {
    pub working: Vec<u8>,
    pub stable: Vec<u8>,
    pub session: Session,
    /// What the last call that walks told of its mends.
    pub report: Report,
    /// The pages that calls have mended since the last opening.
    pub mended: PageSet,
}

/// Stores are the same if their tables and sessions are: reports and mends tell of calls.
impl PartialEq for Store {
    fn eq(&self, other: &Store) -> bool {
        self.working == other.working
            && self.stable == other.stable
            && self.session == other.session
    }
}

impl Eq for Store {}

impl Store {
    pub fn of(working: Vec<u8>, stable: Vec<u8>, session: Session) -> Store {
        Store {
            working,
            stable,
            session,
            report: Report::default(),
            mended: 0,
        }
    }

    /// Fresh from format and open.
    pub fn fresh(n: usize) -> Store {
        let zero = vec![0; n * PAGE];
        let mut store = Store::of(zero.clone(), zero, Session::new(0, 0));
        format(&store.working, &mut store.stable);
        store.open();
        store
    }

    pub fn open(&mut self) -> u32 {
        let (answer, session) = open(&mut self.working, &mut self.stable);
        self.session = session;
        self.mended = 0;
        answer
    }

    fn note(&mut self, mends: Mends) {
        self.report = mends.report;
        self.mended |= mends.pages;
    }

    /// The marked pages reach the stable table, then the store is opened.
    pub fn crash(&mut self, pages: &[bool]) -> u32 {
        crash(&self.working, &mut self.stable, pages);
        self.open()
    }

    pub fn insert(&mut self, key: u64, record: u32) -> u32 {
        let (model, serial, issue) = parts(key);
        let working = &mut self.working;
        let session = self.session;
        let inserted = insert(working, &self.stable, session, model, serial, issue, record);
        self.session = inserted.session;
        self.note(inserted.mends);
        inserted.answer
    }

    pub fn withdraw(&mut self, key: u64) -> u32 {
        let (model, serial, issue) = parts(key);
        let working = &mut self.working;
        let left = withdraw(working, &self.stable, self.session, model, serial, issue);
        self.session = left.session;
        self.note(left.mends);
        left.answer
    }

    /// The items' answers are filled in.
    pub fn batch(&mut self, items: &mut [Item]) -> u32 {
        let left = batch(&mut self.working, &self.stable, self.session, items);
        self.session = left.session;
        self.note(left.mends);
        left.answer
    }

    /// The answer, how many certificates were done, and the place of the first bad item.
    pub fn read_file(&mut self, file: &[u8]) -> (u32, u32, u64) {
        let left = read_file(&mut self.working, &self.stable, self.session, file);
        self.session = left.session;
        self.note(left.mends);
        (left.answer, left.done, left.place)
    }

    pub fn lookup(&mut self, key: u64) -> (u32, u32) {
        let (model, serial, issue) = parts(key);
        let working = &mut self.working;
        let looked = lookup(working, &self.stable, self.session, model, serial, issue);
        self.session = looked.session;
        self.note(looked.mends);
        (looked.answer, looked.record)
    }

    pub fn newest(&mut self, model: u16, serial: u32) -> (u32, u16, u32) {
        let newest = newest(&mut self.working, &self.stable, self.session, model, serial);
        self.session = newest.session;
        self.note(newest.mends);
        (newest.answer, newest.issue, newest.record)
    }

    pub fn has_any(&mut self, model: u16, serial: u32) -> (u32, bool) {
        let working = &mut self.working;
        let has = has_any(working, &self.stable, self.session, model, serial);
        self.session = has.session;
        self.note(has.mends);
        (has.answer, has.any)
    }

    pub fn list(&mut self, start: u64, keys: &mut [u64], records: &mut [u32]) -> (u32, usize) {
        let working = &mut self.working;
        let listed = list(working, &self.stable, self.session, start, keys, records);
        self.session = listed.session;
        self.note(listed.mends);
        (listed.answer, listed.count)
    }

    pub fn write_file(&mut self, out: &mut [u8]) -> (u32, usize) {
        let written = write_file(&mut self.working, &self.stable, self.session, out);
        self.session = written.session;
        self.note(written.mends);
        (written.answer, written.length)
    }

    pub fn sync(&mut self) -> u32 {
        let (answer, session) = sync(&mut self.working, &mut self.stable, self.session);
        self.session = session;
        answer
    }
}
