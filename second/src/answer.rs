//! The answers: of document 01, and those of document 02.

pub const DONE: u32 = 0;
pub const LENGTH: u32 = 1;
pub const BADKEY: u32 = 2;
pub const DAMAGED: u32 = 3;
pub const NONE: u32 = 4;
pub const PRESENT: u32 = 5;
pub const SYNCFIRST: u32 = 6;
pub const FULL: u32 = 7;
pub const SPENT: u32 = 8;
pub const SHORT: u32 = 9;
pub const FILE: u32 = 11;

/// The answers' words, by number; no call that is built gives 10.
pub const WORDS: [&str; 12] = [
    "done",
    "length",
    "badkey",
    "damaged",
    "none",
    "present",
    "syncfirst",
    "full",
    "spent",
    "short",
    "no block",
    "file",
];

/// Each call with the answers that the papers have for it.
pub const ANSWERS: &[(&str, &[usize])] = &[
    ("format", &[0, 1]),
    ("open", &[0, 1, 3, 8]),
    ("insert", &[0, 1, 2, 3, 5, 6, 7]),
    ("withdraw", &[0, 1, 2, 3, 4]),
    ("batch", &[0, 1]),
    ("read_file", &[0, 1, 11]),
    ("lookup", &[0, 1, 2, 3, 4]),
    ("newest", &[0, 1, 2, 3, 4]),
    ("has_any", &[0, 1, 2, 3]),
    ("list", &[0, 1, 3]),
    ("write_file", &[0, 1, 3, 9]),
    ("sync", &[0, 1, 8]),
];

/// Those that walk, and so tell of their mends.
pub const WALKING: &[&str] = &[
    "insert",
    "batch",
    "read_file",
    "withdraw",
    "lookup",
    "newest",
    "has_any",
    "list",
    "write_file",
];
