//! The bench program's lines.

use crate::answer::{DONE, WORDS};
use crate::key::key;
use crate::layout::BENCH_PAGES;
use crate::store::Store;

/// A store of five pages, driven by lines.
pub struct Bench {
    pub store: Store,
}

/// What a well-shaped line asks for.
#[derive(Clone, Copy, PartialEq, Eq, Debug)]
pub enum Line {
    Insert { key: u64, record: u32 },
    Find { key: u64 },
    Sync,
    Crash { pages: [bool; BENCH_PAGES] },
}

impl Bench {
    pub fn new() -> Bench {
        Bench {
            store: Store::fresh(BENCH_PAGES),
        }
    }

    /// The line to print for a line read, both without their newline.
    pub fn line(&mut self, line: &[u8]) -> String {
        let Some(asked) = read(line) else {
            return "line".to_string();
        };
        let (answer, record) = self.act(asked);
        let word = WORDS[answer as usize];
        match record {
            Some(record) if answer == DONE => format!("{word} {record}"),
            _ => word.to_string(),
        }
    }

    /// The answer, and what stands beside it if the line asks for a record.
    fn act(&mut self, asked: Line) -> (u32, Option<u32>) {
        match asked {
            Line::Insert { key, record } => (self.store.insert(key, record), None),
            Line::Find { key } => {
                let (answer, record) = self.store.lookup(key);
                (answer, Some(record))
            }
            Line::Sync => (self.store.sync(), None),
            // After a refused opening working may hold anything: no page of it is written.
            Line::Crash { .. } if self.store.session.n == 0 => (self.store.open(), None),
            Line::Crash { pages } => (self.store.crash(&pages), None),
        }
    }
}

impl Default for Bench {
    fn default() -> Bench {
        Bench::new()
    }
}

/// Reads a line; none if it has another shape.
pub fn read(line: &[u8]) -> Option<Line> {
    let mut fields = line.split(|&byte| byte == b' ');
    let letter = fields.next()?;
    let fields: Vec<&[u8]> = fields.collect();
    match (letter, fields.as_slice()) {
        (b"i", [model, serial, issue, record]) => Some(Line::Insert {
            key: certificate(model, serial, issue)?,
            record: word(record)?,
        }),
        (b"f", [model, serial, issue]) => Some(Line::Find {
            key: certificate(model, serial, issue)?,
        }),
        (b"s", []) => Some(Line::Sync),
        (b"c", numbers) => {
            let mut pages = [false; BENCH_PAGES];
            for number in numbers {
                *pages.get_mut(word(number)? as usize)? = true;
            }
            Some(Line::Crash { pages })
        }
        _ => None,
    }
}

/// The key in three fields. A zero field is well shaped: the call refuses it.
fn certificate(model: &[u8], serial: &[u8], issue: &[u8]) -> Option<u64> {
    Some(key(half(model)?, word(serial)?, half(issue)?))
}

/// Decimal digits, leading zeros too, of a value within 32 bits.
fn word(field: &[u8]) -> Option<u32> {
    if field.is_empty() {
        return None;
    }
    field.iter().try_fold(0u32, |value, byte| {
        let digit = byte.is_ascii_digit().then(|| u32::from(byte - b'0'))?;
        value.checked_mul(10)?.checked_add(digit)
    })
}

/// The same within 16 bits.
fn half(field: &[u8]) -> Option<u16> {
    word(field)?.try_into().ok()
}
