//! The time of each call, side by side in one run: the proved store, read by its lean calls and by the others, the second
//! program, a map in memory, LMDB, SQLite; and the proved store, the store in a file and LMDB, called from C.

mod from_c;
mod lmdb;
mod map;
mod sqlite;
mod stores;
mod subject;
mod table;

use second::key::{key, parts};
use second::rng::Rng;
use std::collections::BTreeMap;
use subject::Subject;
use table::Table;

/// Certificates in each store.
const COUNT: usize = 1500;

/// What is put in, the meters that it is of, and as many keys that are not put in.
pub struct Certificates {
    pub keys: Vec<u64>,
    pub records: Vec<u32>,
    pub meters: Vec<u64>,
    pub absent: Vec<u64>,
}

fn random_key(rng: &Rng) -> u64 {
    let (model, issue) = (rng.from(1, 40) as u16, rng.from(1, 5) as u16);
    key(model, rng.from(1, u32::MAX as usize) as u32, issue)
}

fn certificates(rng: &Rng) -> Certificates {
    let mut all = BTreeMap::new();
    let mut keys = Vec::new();
    while keys.len() < COUNT {
        let (key, record) = (random_key(rng), rng.next() as u32);
        if all.insert(key, record).is_none() {
            keys.push(key);
        }
    }
    let mut absent = Vec::new();
    while absent.len() < COUNT {
        let key = random_key(rng);
        if !all.contains_key(&key) {
            absent.push(key);
        }
    }
    Certificates {
        records: keys.iter().map(|key| all[key]).collect(),
        meters: keys.iter().map(|key| meter(*key)).collect(),
        keys,
        absent,
    }
}

/// The key of its meter's issue 0.
fn meter(of: u64) -> u64 {
    let (model, serial, _) = parts(of);
    key(model, serial, 0)
}

// Which there are is a matter of what could be linked, so they are pushed one by one.
#[allow(clippy::vec_init_then_push)]
fn subjects() -> Vec<Box<dyn Subject>> {
    let mut all: Vec<Box<dyn Subject>> = Vec::new();
    #[cfg(store)]
    all.push(Box::new(stores::Leanly::new()));
    #[cfg(store)]
    all.push(Box::new(stores::Proven::new()));
    all.push(Box::new(stores::Second::new()));
    all.push(Box::new(map::Map::new()));
    #[cfg(lmdb)]
    all.push(Box::new(lmdb::Lmdb::new()));
    #[cfg(lmdb)]
    all.push(Box::new(lmdb::Lmdb::write_map()));
    #[cfg(sqlite)]
    all.push(Box::new(sqlite::Sqlite::new()));
    all
}

/// Called from C, which is there where both can be linked.
fn from_c() -> Vec<Box<dyn Subject>> {
    #[cfg(caller)]
    return vec![
        Box::new(from_c::FromC::lean()),
        Box::new(from_c::FromC::store()),
        Box::new(from_c::FromC::file()),
        Box::new(from_c::FromC::lmdb()),
    ];
    #[cfg(not(caller))]
    Vec::new()
}

fn main() {
    let words: Vec<String> = std::env::args().skip(1).collect();
    let rounds = words.first().map_or(Some(100), |word| word.parse().ok());
    let Some(rounds) = rounds else {
        eprintln!("usage: speed [ROUNDS]");
        std::process::exit(2);
    };
    let certificates = certificates(&Rng::new(1991));
    println!("{COUNT} certificates, best of {rounds} rounds, ns");
    for (caller, subjects) in [("Rust", subjects()), ("C, gcc -O2", from_c())] {
        if subjects.is_empty() {
            continue;
        }
        let mut table = Table::new(subjects);
        for _ in 0..rounds {
            table.round(&certificates);
        }
        println!("\ncalled from {caller}\n{table}");
    }
}
