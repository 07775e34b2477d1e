#![cfg(caller)]
//! The proved store, the store in a file and LMDB as `caller.c` calls them.

use super::lmdb::Folder;
use super::subject::Subject;
use second::key::key;
use std::ffi::c_char;

/// `Calls` of `caller.c`.
#[repr(C)]
struct Calls {
    clear: extern "C" fn() -> bool,
    fill: extern "C" fn(*const u64, *const u32, usize) -> bool,
    lookups: extern "C" fn(*const u64, *mut u32, usize) -> usize,
    newests: extern "C" fn(*const u64, *mut u32, usize) -> usize,
    list: extern "C" fn() -> usize,
    put: extern "C" fn(u64, u32) -> bool,
    sync: extern "C" fn() -> bool,
    open: Option<extern "C" fn() -> bool>,
    refused: Option<extern "C" fn(usize) -> bool>,
}

extern "C" {
    static caller_store: Calls;
    static caller_lean: Calls;
    static caller_file: Calls;
    static caller_lmdb: Calls;
    fn caller_file_at(path: *const c_char) -> bool;
    fn caller_file_close();
    fn caller_lmdb_open(path: *const c_char) -> bool;
    fn caller_lmdb_close();
}

pub struct FromC {
    name: &'static str,
    calls: &'static Calls,
    /// Where its file is, and what closes it.
    open: Option<(Folder, unsafe extern "C" fn())>,
}

impl FromC {
    pub fn lean() -> FromC {
        FromC {
            name: "lean calls",
            calls: unsafe { &caller_lean },
            open: None,
        }
    }

    pub fn file() -> FromC {
        let folder = Folder::new("file");
        assert!(unsafe { caller_file_at(folder.path().as_ptr()) }, "a file");
        FromC {
            name: "store in a file",
            calls: unsafe { &caller_file },
            open: Some((folder, caller_file_close)),
        }
    }

    pub fn store() -> FromC {
        FromC {
            name: "proved store",
            calls: unsafe { &caller_store },
            open: None,
        }
    }

    pub fn lmdb() -> FromC {
        let folder = Folder::new("c");
        assert!(unsafe { caller_lmdb_open(folder.path().as_ptr()) }, "LMDB");
        FromC {
            name: "LMDB",
            calls: unsafe { &caller_lmdb },
            open: Some((folder, caller_lmdb_close)),
        }
    }
}

impl Drop for FromC {
    fn drop(&mut self) {
        if let Some((_, close)) = &self.open {
            unsafe { close() };
        }
    }
}

impl Subject for FromC {
    fn name(&self) -> &'static str {
        self.name
    }

    fn clear(&mut self) {
        assert!((self.calls.clear)());
    }

    fn fill(&mut self, keys: &[u64], records: &[u32]) {
        let count = keys.len().min(records.len());
        assert!((self.calls.fill)(keys.as_ptr(), records.as_ptr(), count));
    }

    fn lookup(&mut self, key: u64) -> Option<u32> {
        let mut record = [0];
        (self.lookups(&[key], &mut record) == 1).then_some(record[0])
    }

    fn newest(&mut self, model: u16, serial: u32) -> Option<u32> {
        let mut record = [0];
        (self.newests(&[key(model, serial, 0)], &mut record) == 1).then_some(record[0])
    }

    fn lookups(&mut self, keys: &[u64], records: &mut [u32]) -> usize {
        let count = keys.len().min(records.len());
        (self.calls.lookups)(keys.as_ptr(), records.as_mut_ptr(), count)
    }

    fn newests(&mut self, meters: &[u64], records: &mut [u32]) -> usize {
        let count = meters.len().min(records.len());
        (self.calls.newests)(meters.as_ptr(), records.as_mut_ptr(), count)
    }

    fn list(&mut self) -> usize {
        (self.calls.list)()
    }

    fn put(&mut self, key: u64, record: u32) {
        assert!((self.calls.put)(key, record));
    }

    fn sync(&mut self) {
        assert!((self.calls.sync)());
    }

    fn open(&mut self) -> bool {
        self.calls.open.is_some_and(|open| open())
    }

    fn refused(&mut self, count: usize) -> bool {
        self.calls.refused.is_some_and(|refused| refused(count))
    }
}
