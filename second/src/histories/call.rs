//! The moves of a history.

use crate::key::parts;
use crate::page::PageSet;
use std::fmt;

/// Which working pages a crash writes, and whether it falls inside a sync.
#[derive(Clone, Copy, PartialEq, Eq, Debug)]
pub struct Mix {
    pub pages: PageSet,
    pub inside_sync: bool,
}

impl Mix {
    /// Nothing is written: what an opening without a crash sees.
    pub const NONE: Mix = Mix {
        pages: 0,
        inside_sync: false,
    };
}

#[derive(Clone, PartialEq, Eq, Debug)]
pub enum Call {
    Insert {
        key: u64,
        record: u32,
    },
    Withdraw {
        key: u64,
    },
    /// Keys and records of a delivery.
    Batch {
        items: Vec<(u64, u32)>,
    },
    Lookup {
        key: u64,
    },
    Newest {
        model: u16,
        serial: u32,
    },
    HasAny {
        model: u16,
        serial: u32,
    },
    List {
        start: u64,
        keys: usize,
        records: usize,
    },
    Sync,
    /// A sync, and as many more as bring the counter this near to its end.
    SyncsUntil {
        left: u32,
    },
    Open,
    Crash(Mix),
    /// A crash on copies; the history goes on as if nothing had been.
    Mix(Mix),
    /// The same with every set of pages, if few pages differ.
    AllMixes {
        inside_sync: bool,
    },
    /// Every call with tables or a session of a wrong length.
    Misfit {
        pages: usize,
    },
}

impl Call {
    /// Whether the session comes back as it was handed in.
    pub fn reads(&self) -> bool {
        !matches!(
            self,
            Call::Insert { .. }
                | Call::Withdraw { .. }
                | Call::Batch { .. }
                | Call::Sync
                | Call::SyncsUntil { .. }
                | Call::Open
                | Call::Crash(_)
        )
    }
}

/// A set with these numbers.
pub fn set(pages: impl IntoIterator<Item = usize>) -> PageSet {
    pages.into_iter().fold(0, |set, page| set | 1 << page)
}

/// The numbers in a set.
pub fn numbers(set: PageSet) -> impl Iterator<Item = usize> {
    (0..128).filter(move |page| set >> page & 1 == 1)
}

impl fmt::Display for Mix {
    fn fmt(&self, out: &mut fmt::Formatter) -> fmt::Result {
        if self.inside_sync {
            write!(out, " inside a sync")?;
        }
        write!(out, " with pages")?;
        numbers(self.pages).try_for_each(|page| write!(out, " {page}"))
    }
}

impl fmt::Display for Call {
    fn fmt(&self, out: &mut fmt::Formatter) -> fmt::Result {
        match *self {
            Call::Insert { key, record } => {
                let (model, serial, issue) = parts(key);
                write!(out, "insert {model} {serial} {issue} record {record}")
            }
            Call::Withdraw { key } => {
                let (model, serial, issue) = parts(key);
                write!(out, "withdraw {model} {serial} {issue}")
            }
            Call::Batch { ref items } => {
                write!(out, "batch of")?;
                items.iter().try_for_each(|&(key, record)| {
                    let (model, serial, issue) = parts(key);
                    write!(out, " ({model} {serial} {issue} record {record})")
                })
            }
            Call::Lookup { key } => {
                let (model, serial, issue) = parts(key);
                write!(out, "lookup {model} {serial} {issue}")
            }
            Call::Newest { model, serial } => write!(out, "newest {model} {serial}"),
            Call::HasAny { model, serial } => write!(out, "has any {model} {serial}"),
            Call::List {
                start,
                keys,
                records,
            } => {
                write!(out, "list from {start} into {keys} keys, {records} records")
            }
            Call::Sync => write!(out, "sync"),
            Call::SyncsUntil { left } => write!(out, "syncs until {left} are left"),
            Call::Open => write!(out, "open"),
            Call::Crash(mix) => write!(out, "crash{mix}"),
            Call::Mix(mix) => write!(out, "mix{mix}"),
            Call::AllMixes { inside_sync } => {
                let inside = if inside_sync { " inside a sync" } else { "" };
                write!(out, "all mixes{inside}")
            }
            Call::Misfit { pages } => write!(out, "every call with a table of {pages} pages"),
        }
    }
}
