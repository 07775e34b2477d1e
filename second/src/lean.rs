//! The proved store as the lean calls read it: by the numbers of its session, which stays where it is.

use crate::key::parts;
use crate::proved::Proved;
use crate::report::Report;

#[repr(C)]
struct Looked {
    answer: u32,
    record: u32,
    report: Report,
}

#[repr(C)]
struct Newest {
    answer: u32,
    issue: u32,
    record: u32,
    report: Report,
}

#[repr(C)]
struct Any {
    answer: u32,
    any: u32,
    report: Report,
}

#[repr(C)]
struct Listed {
    answer: u32,
    count: u64,
    report: Report,
}

#[repr(C)]
struct Written {
    answer: u32,
    length: u64,
    report: Report,
}

// include/khirpando.h says the same.
#[rustfmt::skip]
extern "C" {
    fn kh_lean_lookup(working: *mut u8, w: usize, stable: *const u8, s: usize, n: u16, c: u32,
                      model: u16, serial: u32, issue: u16) -> Looked;
    fn kh_lean_newest(working: *mut u8, w: usize, stable: *const u8, s: usize, n: u16, c: u32,
                      model: u16, serial: u32) -> Newest;
    fn kh_lean_has_any(working: *mut u8, w: usize, stable: *const u8, s: usize, n: u16, c: u32,
                       model: u16, serial: u32) -> Any;
    fn kh_lean_list(working: *mut u8, w: usize, stable: *const u8, s: usize, n: u16, c: u32,
                    start: u64, keys: *mut u64, k: usize, records: *mut u32, r: usize) -> Listed;
    fn kh_lean_write_file(working: *mut u8, w: usize, stable: *const u8, s: usize, n: u16, c: u32,
                          out: *mut u8, o: usize) -> Written;
}

#[derive(Clone)]
pub struct Lean(pub Proved);

/// Both tables and the session's numbers, as each lean call takes them before its own arguments.
macro_rules! lean {
    ($call:ident, $store:expr $(, $argument:expr)*) => {{
        let store = &mut $store.0 .0;
        let (w, s) = (store.working.len(), store.stable.len());
        let (working, stable) = (store.working.as_mut_ptr(), store.stable.as_ptr());
        let (n, c) = (store.session.n, store.session.c);
        let told = unsafe { $call(working, w, stable, s, n, c $(, $argument)*) };
        store.report = told.report;
        told
    }};
}

// As in `proved`: each call is lent slices that live as long as it runs, with their own lengths.
impl Lean {
    pub fn lookup(&mut self, key: u64) -> (u32, u32) {
        let (model, serial, issue) = parts(key);
        let looked = lean!(kh_lean_lookup, self, model, serial, issue);
        (looked.answer, looked.record)
    }

    pub fn newest(&mut self, model: u16, serial: u32) -> (u32, u32, u32) {
        let newest = lean!(kh_lean_newest, self, model, serial);
        (newest.answer, newest.issue, newest.record)
    }

    pub fn has_any(&mut self, model: u16, serial: u32) -> (u32, u32) {
        let has = lean!(kh_lean_has_any, self, model, serial);
        (has.answer, has.any)
    }

    pub fn list(&mut self, start: u64, keys: &mut [u64], records: &mut [u32]) -> (u32, u64) {
        let (k, r) = (keys.len(), records.len());
        let (keys, records) = (keys.as_mut_ptr(), records.as_mut_ptr());
        let listed = lean!(kh_lean_list, self, start, keys, k, records, r);
        (listed.answer, listed.count)
    }

    pub fn write_file(&mut self, out: &mut [u8]) -> (u32, u64) {
        let written = lean!(kh_lean_write_file, self, out.as_mut_ptr(), out.len());
        (written.answer, written.length)
    }

    pub fn insert(&mut self, key: u64, record: u32) -> u32 {
        self.0.insert(key, record)
    }

    pub fn sync(&mut self) -> u32 {
        self.0.sync()
    }

    pub fn open(&mut self) -> u32 {
        self.0.open()
    }
}
