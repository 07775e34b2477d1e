#![cfg(lmdb)]
//! LMDB in a folder for temporary files, never forced to the disc: keys as 64-bit numbers, the order of its own choice.
//! With its write map it changes the file in memory; without, it writes the pages.

use super::subject::Subject;
use second::key::key;
use std::ffi::{c_char, c_int, c_uint, c_void, CString};
use std::path::PathBuf;
use std::ptr::null_mut;

#[repr(C)]
struct Val {
    size: usize,
    data: *mut c_void,
}

impl Val {
    fn of<T>(value: &mut T) -> Val {
        Val {
            size: size_of::<T>(),
            data: (value as *mut T).cast(),
        }
    }

    const NONE: Val = Val {
        size: 0,
        data: null_mut(),
    };
}

#[rustfmt::skip]
extern "C" {
    fn mdb_env_create(env: *mut *mut c_void) -> c_int;
    fn mdb_env_set_mapsize(env: *mut c_void, size: usize) -> c_int;
    fn mdb_env_open(env: *mut c_void, path: *const c_char, flags: c_uint, mode: c_uint) -> c_int;
    fn mdb_env_close(env: *mut c_void);
    fn mdb_txn_begin(env: *mut c_void, parent: *mut c_void, flags: c_uint, txn: *mut *mut c_void) -> c_int;
    fn mdb_txn_commit(txn: *mut c_void) -> c_int;
    fn mdb_txn_abort(txn: *mut c_void);
    fn mdb_dbi_open(txn: *mut c_void, name: *const c_char, flags: c_uint, dbi: *mut c_uint) -> c_int;
    fn mdb_drop(txn: *mut c_void, dbi: c_uint, del: c_int) -> c_int;
    fn mdb_get(txn: *mut c_void, dbi: c_uint, key: *mut Val, data: *mut Val) -> c_int;
    fn mdb_put(txn: *mut c_void, dbi: c_uint, key: *mut Val, data: *mut Val, flags: c_uint) -> c_int;
    fn mdb_cursor_open(txn: *mut c_void, dbi: c_uint, cursor: *mut *mut c_void) -> c_int;
    fn mdb_cursor_close(cursor: *mut c_void);
    fn mdb_cursor_get(cursor: *mut c_void, key: *mut Val, data: *mut Val, op: c_uint) -> c_int;
}

const NO_SYNC: c_uint = 0x1_0000;
const WRITE_MAP: c_uint = 0x8_0000;
const READ_ONLY: c_uint = 0x2_0000;
const INTEGER_KEY: c_uint = 0x08;
const NO_OVERWRITE: c_uint = 0x10;
const NOT_FOUND: c_int = -30798;
const FIRST: c_uint = 0;
const LAST: c_uint = 6;
const NEXT: c_uint = 8;
const PREV: c_uint = 12;
const SET_RANGE: c_uint = 17;

const MAP: usize = 16 << 20;

pub struct Lmdb {
    name: &'static str,
    env: *mut c_void,
    dbi: c_uint,
    reading: *mut c_void,
    writing: *mut c_void,
    _folder: Folder,
}

/// A folder of its own for each environment, gone with it.
pub struct Folder(PathBuf);

impl Folder {
    pub fn new(name: &str) -> Folder {
        let folder = std::env::temp_dir().join(format!("speed-{}-{name}", std::process::id()));
        std::fs::create_dir_all(&folder).expect("a folder for LMDB");
        Folder(folder)
    }

    pub fn path(&self) -> CString {
        CString::new(self.0.to_str().expect("a plain path")).expect("a plain path")
    }
}

impl Drop for Folder {
    fn drop(&mut self) {
        let _ = std::fs::remove_dir_all(&self.0);
    }
}

fn done(status: c_int) {
    assert_eq!(status, 0, "LMDB");
}

impl Lmdb {
    pub fn new() -> Lmdb {
        Lmdb::with("LMDB", NO_SYNC)
    }

    pub fn write_map() -> Lmdb {
        Lmdb::with("LMDB write map", NO_SYNC | WRITE_MAP)
    }

    fn with(name: &'static str, flags: c_uint) -> Lmdb {
        let folder = Folder::new(if flags == NO_SYNC { "plain" } else { "map" });
        let path = folder.path();
        let mut lmdb = Lmdb {
            name,
            env: null_mut(),
            dbi: 0,
            reading: null_mut(),
            writing: null_mut(),
            _folder: folder,
        };
        unsafe {
            done(mdb_env_create(&mut lmdb.env));
            done(mdb_env_set_mapsize(lmdb.env, MAP));
            done(mdb_env_open(lmdb.env, path.as_ptr(), flags, 0o600));
        }
        lmdb.begin();
        unsafe {
            done(mdb_dbi_open(
                lmdb.writing,
                std::ptr::null(),
                INTEGER_KEY,
                &mut lmdb.dbi,
            ))
        };
        lmdb.sync();
        lmdb
    }

    fn begin(&mut self) {
        self.end_reading();
        if self.writing.is_null() {
            unsafe { done(mdb_txn_begin(self.env, null_mut(), 0, &mut self.writing)) };
        }
    }

    fn end_reading(&mut self) {
        if !self.reading.is_null() {
            unsafe { mdb_txn_abort(self.reading) };
            self.reading = null_mut();
        }
    }

    fn reading(&mut self) -> *mut c_void {
        if self.reading.is_null() {
            unsafe {
                done(mdb_txn_begin(
                    self.env,
                    null_mut(),
                    READ_ONLY,
                    &mut self.reading,
                ))
            };
        }
        self.reading
    }
}

impl Drop for Lmdb {
    fn drop(&mut self) {
        self.end_reading();
        unsafe { mdb_env_close(self.env) };
    }
}

impl Subject for Lmdb {
    fn name(&self) -> &'static str {
        self.name
    }

    fn clear(&mut self) {
        self.begin();
        unsafe { done(mdb_drop(self.writing, self.dbi, 0)) };
        self.sync();
    }

    fn fill(&mut self, keys: &[u64], records: &[u32]) {
        for (key, record) in keys.iter().zip(records) {
            self.put(*key, *record);
        }
        self.sync();
    }

    fn lookup(&mut self, key: u64) -> Option<u32> {
        let (mut key, mut found) = (key, Val::NONE);
        let status =
            unsafe { mdb_get(self.reading(), self.dbi, &mut Val::of(&mut key), &mut found) };
        (status == 0).then(|| unsafe { found.data.cast::<u32>().read_unaligned() })
    }

    fn newest(&mut self, model: u16, serial: u32) -> Option<u32> {
        let mut after = key(model, serial, u16::MAX) + 1;
        let (mut at, mut found, mut cursor) = (Val::of(&mut after), Val::NONE, null_mut());
        unsafe {
            done(mdb_cursor_open(self.reading(), self.dbi, &mut cursor));
            let past = mdb_cursor_get(cursor, &mut at, &mut found, SET_RANGE);
            let op = if past == NOT_FOUND { LAST } else { PREV };
            let status = mdb_cursor_get(cursor, &mut at, &mut found, op);
            let last = (status == 0).then(|| at.data.cast::<u64>().read_unaligned());
            let record = (status == 0).then(|| found.data.cast::<u32>().read_unaligned());
            mdb_cursor_close(cursor);
            record.filter(|_| last.is_some_and(|last| last >= key(model, serial, 1)))
        }
    }

    fn list(&mut self) -> usize {
        let (mut at, mut found, mut cursor) = (Val::NONE, Val::NONE, null_mut());
        let mut lists = (Vec::with_capacity(2000), Vec::with_capacity(2000));
        unsafe {
            done(mdb_cursor_open(self.reading(), self.dbi, &mut cursor));
            let mut status = mdb_cursor_get(cursor, &mut at, &mut found, FIRST);
            while status == 0 {
                lists.0.push(at.data.cast::<u64>().read_unaligned());
                lists.1.push(found.data.cast::<u32>().read_unaligned());
                status = mdb_cursor_get(cursor, &mut at, &mut found, NEXT);
            }
            mdb_cursor_close(cursor);
        }
        std::hint::black_box(&lists).0.len()
    }

    fn put(&mut self, key: u64, record: u32) {
        self.begin();
        let (mut key, mut record) = (key, record);
        let (mut key, mut record) = (Val::of(&mut key), Val::of(&mut record));
        unsafe {
            done(mdb_put(
                self.writing,
                self.dbi,
                &mut key,
                &mut record,
                NO_OVERWRITE,
            ))
        };
    }

    fn sync(&mut self) {
        if !self.writing.is_null() {
            unsafe { done(mdb_txn_commit(self.writing)) };
            self.writing = null_mut();
        }
    }
}
