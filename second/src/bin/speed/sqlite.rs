#![cfg(sqlite)]
//! SQLite in memory: one table, statements prepared once.

use super::subject::Subject;
use second::key::key;
use std::ffi::{c_char, c_int, c_void};
use std::ptr::{null, null_mut};

#[rustfmt::skip]
extern "C" {
    fn sqlite3_open(path: *const c_char, db: *mut *mut c_void) -> c_int;
    fn sqlite3_exec(db: *mut c_void, sql: *const c_char, each: *const c_void, with: *mut c_void, error: *mut *mut c_char) -> c_int;
    fn sqlite3_prepare_v2(db: *mut c_void, sql: *const c_char, length: c_int, statement: *mut *mut c_void, rest: *mut *const c_char) -> c_int;
    fn sqlite3_bind_int64(statement: *mut c_void, index: c_int, value: i64) -> c_int;
    fn sqlite3_step(statement: *mut c_void) -> c_int;
    fn sqlite3_reset(statement: *mut c_void) -> c_int;
    fn sqlite3_column_int64(statement: *mut c_void, column: c_int) -> i64;
}

const ROW: c_int = 100;

pub struct Sqlite {
    db: *mut c_void,
    put: *mut c_void,
    get: *mut c_void,
    last: *mut c_void,
    all: *mut c_void,
    writing: bool,
}

impl Sqlite {
    pub fn new() -> Sqlite {
        let mut db = null_mut();
        unsafe { assert_eq!(sqlite3_open(c":memory:".as_ptr(), &mut db), 0) };
        let mut sqlite = Sqlite {
            db,
            put: null_mut(),
            get: null_mut(),
            last: null_mut(),
            all: null_mut(),
            writing: false,
        };
        sqlite.run(c"create table certs (key integer primary key, record integer)");
        sqlite.put = sqlite.prepare(c"insert into certs values (?, ?)");
        sqlite.get = sqlite.prepare(c"select record from certs where key = ?");
        sqlite.last = sqlite.prepare(
            c"select record from certs where key between ? and ? order by key desc limit 1",
        );
        sqlite.all = sqlite.prepare(c"select key, record from certs order by key");
        sqlite
    }

    fn run(&self, sql: &std::ffi::CStr) {
        let status = unsafe { sqlite3_exec(self.db, sql.as_ptr(), null(), null_mut(), null_mut()) };
        assert_eq!(status, 0, "SQLite");
    }

    fn prepare(&self, sql: &std::ffi::CStr) -> *mut c_void {
        let mut statement = null_mut();
        let status =
            unsafe { sqlite3_prepare_v2(self.db, sql.as_ptr(), -1, &mut statement, null_mut()) };
        assert_eq!(status, 0, "SQLite");
        statement
    }

    /// The first column of a statement's first row.
    fn first(statement: *mut c_void, values: &[u64]) -> Option<u32> {
        unsafe {
            for (index, value) in values.iter().enumerate() {
                sqlite3_bind_int64(statement, index as c_int + 1, *value as i64);
            }
            let row = sqlite3_step(statement) == ROW;
            let value = row.then(|| sqlite3_column_int64(statement, 0) as u32);
            sqlite3_reset(statement);
            value
        }
    }
}

impl Subject for Sqlite {
    fn name(&self) -> &'static str {
        "SQLite"
    }

    fn clear(&mut self) {
        self.run(c"delete from certs");
    }

    fn fill(&mut self, keys: &[u64], records: &[u32]) {
        for (key, record) in keys.iter().zip(records) {
            self.put(*key, *record);
        }
        self.sync();
    }

    fn lookup(&mut self, key: u64) -> Option<u32> {
        Sqlite::first(self.get, &[key])
    }

    fn newest(&mut self, model: u16, serial: u32) -> Option<u32> {
        let issues = [key(model, serial, 1), key(model, serial, u16::MAX)];
        Sqlite::first(self.last, &issues)
    }

    fn list(&mut self) -> usize {
        let mut lists = (Vec::with_capacity(2000), Vec::with_capacity(2000));
        unsafe {
            while sqlite3_step(self.all) == ROW {
                lists.0.push(sqlite3_column_int64(self.all, 0) as u64);
                lists.1.push(sqlite3_column_int64(self.all, 1) as u32);
            }
            sqlite3_reset(self.all);
        }
        std::hint::black_box(&lists).0.len()
    }

    fn put(&mut self, key: u64, record: u32) {
        if !self.writing {
            self.run(c"begin");
            self.writing = true;
        }
        Sqlite::first(self.put, &[key, u64::from(record)]);
    }

    fn sync(&mut self) {
        if self.writing {
            self.run(c"commit");
            self.writing = false;
        }
    }
}
