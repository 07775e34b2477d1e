//! The proved store: a store whose calls are those that its library exports to C.

use crate::batch::Item;
use crate::key::parts;
use crate::report::Report;
use crate::session::Session;
use crate::store::Store;

#[repr(C)]
struct Answered {
    answer: u32,
    session: Session,
}

#[repr(C)]
struct Changed {
    answer: u32,
    report: Report,
    session: Session,
}

#[repr(C)]
struct Read {
    answer: u32,
    done: u32,
    place: u64,
    report: Report,
    session: Session,
}

#[repr(C)]
struct Looked {
    answer: u32,
    record: u32,
    report: Report,
    session: Session,
}

#[repr(C)]
struct Newest {
    answer: u32,
    issue: u32,
    record: u32,
    report: Report,
    session: Session,
}

#[repr(C)]
struct Any {
    answer: u32,
    any: u32,
    report: Report,
    session: Session,
}

#[repr(C)]
struct Listed {
    answer: u32,
    count: u64,
    report: Report,
    session: Session,
}

#[repr(C)]
struct Written {
    answer: u32,
    length: u64,
    report: Report,
    session: Session,
}

// include/khirpando.h says the same.
#[rustfmt::skip]
extern "C" {
    fn kh_format(working: *const u8, w: usize, stable: *mut u8, s: usize) -> u32;
    fn kh_open(working: *mut u8, w: usize, stable: *mut u8, s: usize) -> Answered;
    fn kh_insert(working: *mut u8, w: usize, stable: *const u8, s: usize, session: Session,
                 model: u16, serial: u32, issue: u16, record: u32) -> Changed;
    fn kh_withdraw(working: *mut u8, w: usize, stable: *const u8, s: usize, session: Session,
                   model: u16, serial: u32, issue: u16) -> Changed;
    fn kh_batch(working: *mut u8, w: usize, stable: *const u8, s: usize, session: Session,
                items: *mut Item, i: usize) -> Changed;
    fn kh_read_file(working: *mut u8, w: usize, stable: *const u8, s: usize, session: Session,
                    file: *const u8, f: usize) -> Read;
    fn kh_lookup(working: *mut u8, w: usize, stable: *const u8, s: usize, session: Session,
                 model: u16, serial: u32, issue: u16) -> Looked;
    fn kh_newest(working: *mut u8, w: usize, stable: *const u8, s: usize, session: Session,
                 model: u16, serial: u32) -> Newest;
    fn kh_has_any(working: *mut u8, w: usize, stable: *const u8, s: usize, session: Session,
                  model: u16, serial: u32) -> Any;
    fn kh_list(working: *mut u8, w: usize, stable: *const u8, s: usize, session: Session,
               start: u64, keys: *mut u64, k: usize, records: *mut u32, r: usize) -> Listed;
    fn kh_write_file(working: *mut u8, w: usize, stable: *const u8, s: usize, session: Session,
                     out: *mut u8, o: usize) -> Written;
    fn kh_sync(working: *mut u8, w: usize, stable: *mut u8, s: usize, session: Session) -> Answered;
}

#[derive(Clone, PartialEq, Eq, Debug)]
pub struct Proved(pub Store);

/// A lent table as C takes it: pointer and length.
macro_rules! lend {
    ($table:expr) => {
        ($table.as_ptr(), $table.len())
    };
    (mut $table:expr) => {
        ($table.as_mut_ptr(), $table.len())
    };
}

// Each call is lent slices that live as long as it runs, with their own lengths, and requires nothing else.
impl Proved {
    pub fn format(&mut self) -> u32 {
        let (working, w) = lend!(self.0.working);
        let (stable, s) = lend!(mut self.0.stable);
        unsafe { kh_format(working, w, stable, s) }
    }

    pub fn open(&mut self) -> u32 {
        let (working, w) = lend!(mut self.0.working);
        let (stable, s) = lend!(mut self.0.stable);
        let opened = unsafe { kh_open(working, w, stable, s) };
        self.0.session = opened.session;
        opened.answer
    }

    pub fn insert(&mut self, key: u64, record: u32) -> u32 {
        let (model, serial, issue) = parts(key);
        let (working, w) = lend!(mut self.0.working);
        let (stable, s) = lend!(self.0.stable);
        let session = self.0.session;
        let inserted =
            unsafe { kh_insert(working, w, stable, s, session, model, serial, issue, record) };
        self.0.session = inserted.session;
        self.0.report = inserted.report;
        inserted.answer
    }

    pub fn withdraw(&mut self, key: u64) -> u32 {
        let (model, serial, issue) = parts(key);
        let (working, w) = lend!(mut self.0.working);
        let (stable, s) = lend!(self.0.stable);
        let session = self.0.session;
        let left = unsafe { kh_withdraw(working, w, stable, s, session, model, serial, issue) };
        self.0.session = left.session;
        self.0.report = left.report;
        left.answer
    }

    pub fn batch(&mut self, items: &mut [Item]) -> u32 {
        let (working, w) = lend!(mut self.0.working);
        let (stable, s) = lend!(self.0.stable);
        let (items, i) = lend!(mut items);
        let left = unsafe { kh_batch(working, w, stable, s, self.0.session, items, i) };
        self.0.session = left.session;
        self.0.report = left.report;
        left.answer
    }

    pub fn read_file(&mut self, file: &[u8]) -> (u32, u32, u64) {
        let (working, w) = lend!(mut self.0.working);
        let (stable, s) = lend!(self.0.stable);
        let (file, f) = lend!(file);
        let read = unsafe { kh_read_file(working, w, stable, s, self.0.session, file, f) };
        self.0.session = read.session;
        self.0.report = read.report;
        (read.answer, read.done, read.place)
    }

    pub fn lookup(&mut self, key: u64) -> (u32, u32) {
        let (model, serial, issue) = parts(key);
        let (working, w) = lend!(mut self.0.working);
        let (stable, s) = lend!(self.0.stable);
        let session = self.0.session;
        let looked = unsafe { kh_lookup(working, w, stable, s, session, model, serial, issue) };
        self.0.session = looked.session;
        self.0.report = looked.report;
        (looked.answer, looked.record)
    }

    pub fn newest(&mut self, model: u16, serial: u32) -> (u32, u32, u32) {
        let (working, w) = lend!(mut self.0.working);
        let (stable, s) = lend!(self.0.stable);
        let session = self.0.session;
        let newest = unsafe { kh_newest(working, w, stable, s, session, model, serial) };
        self.0.session = newest.session;
        self.0.report = newest.report;
        (newest.answer, newest.issue, newest.record)
    }

    pub fn has_any(&mut self, model: u16, serial: u32) -> (u32, u32) {
        let (working, w) = lend!(mut self.0.working);
        let (stable, s) = lend!(self.0.stable);
        let session = self.0.session;
        let has = unsafe { kh_has_any(working, w, stable, s, session, model, serial) };
        self.0.session = has.session;
        self.0.report = has.report;
        (has.answer, has.any)
    }

    pub fn list(&mut self, start: u64, keys: &mut [u64], records: &mut [u32]) -> (u32, u64) {
        let (working, w) = lend!(mut self.0.working);
        let (stable, s) = lend!(self.0.stable);
        let (keys, k) = lend!(mut keys);
        let (records, r) = lend!(mut records);
        let session = self.0.session;
        let listed = unsafe { kh_list(working, w, stable, s, session, start, keys, k, records, r) };
        self.0.session = listed.session;
        self.0.report = listed.report;
        (listed.answer, listed.count)
    }

    pub fn write_file(&mut self, out: &mut [u8]) -> (u32, u64) {
        let (working, w) = lend!(mut self.0.working);
        let (stable, s) = lend!(self.0.stable);
        let (out, o) = lend!(mut out);
        let session = self.0.session;
        let written = unsafe { kh_write_file(working, w, stable, s, session, out, o) };
        self.0.session = written.session;
        self.0.report = written.report;
        (written.answer, written.length)
    }

    pub fn sync(&mut self) -> u32 {
        let (working, w) = lend!(mut self.0.working);
        let (stable, s) = lend!(mut self.0.stable);
        let synced = unsafe { kh_sync(working, w, stable, s, self.0.session) };
        self.0.session = synced.session;
        synced.answer
    }
}
