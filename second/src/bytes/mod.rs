//! Arbitrary and lightly changed tables, lengths and sessions, held against demand 1.

pub mod files;
mod other_ways;
mod promises;
pub mod tables;

use crate::answer::{ANSWERS, WORDS};
use crate::key::{key, parts, whole};
use crate::layout::{INNER_CAP, KIND_LEAF, PAGE};
use crate::page;
use crate::rng::Rng;
use crate::store::Store;
use crate::tree::Tree;
use crate::walk::{pages, zero_fits};
use promises::Kept;
use std::collections::BTreeMap;
use std::fmt;
use std::panic::{catch_unwind, AssertUnwindSafe};
use std::time::{Duration, Instant};

const NAMED: [&str; 16] = [
    "tables",
    "calls",
    "mended leaves",
    "mended kind 2",
    "mended kind 3",
    "openings refused for their names alone",
    "reports of an unsound page",
    "reports of another kind",
    "reports of another birth",
    "reports of another range",
    "reports of two mends and more",
    "reports beside a damaged place",
    "newest that leaves a lost page of its meter",
    "newest that leaves a damaged page of its meter",
    "has-any that leaves a lost page of its meter",
    "has-any that leaves a damaged page of its meter",
];

/// What a run has met.
pub struct Counters(BTreeMap<(&'static str, &'static str), u64>);

impl Default for Counters {
    fn default() -> Counters {
        Counters::new()
    }
}

impl Counters {
    pub fn new() -> Counters {
        let answers = ANSWERS
            .iter()
            .flat_map(|(call, answers)| answers.iter().map(move |answer| (*call, WORDS[*answer])));
        let named = NAMED.iter().map(|name| ("all", *name));
        Counters(answers.chain(named).map(|name| (name, 0)).collect())
    }

    fn add(&mut self, name: &'static str) {
        *self
            .0
            .get_mut(&("all", name))
            .expect("a counter by that name") += 1;
    }

    fn add_if(&mut self, holds: bool, name: &'static str) {
        if holds {
            self.add(name);
        }
    }

    /// Counts an answer; one that the call can't give is an error of the call.
    fn answer(&mut self, call: &'static str, answer: u32) {
        let word = WORDS[answer as usize];
        let count = self.0.get_mut(&(call, word));
        *count.unwrap_or_else(|| panic!("{call} answers {word}")) += 1;
        self.add("calls");
    }

    /// Those that stayed 0.
    pub fn missing(&self) -> Vec<String> {
        let zero = self.0.iter().filter(|(_, count)| **count == 0);
        zero.map(|((call, name), _)| format!("{call} {name}"))
            .collect()
    }
}

impl fmt::Display for Counters {
    fn fmt(&self, out: &mut fmt::Formatter) -> fmt::Result {
        for ((call, name), count) in &self.0 {
            writeln!(out, "{count:>12}  {call} {name}")?;
        }
        let least = self.0.iter().min_by_key(|(_, count)| **count);
        let ((call, name), count) = least.expect("there are counters");
        write!(out, "smallest counter: {count} ({call} {name})")
    }
}

/// Tries tables until time is up or a promise is broken; then the seed of the table is given.
pub fn run(seed: u64, time: Duration, counters: &mut Counters) -> Option<String> {
    let seeds = Rng::new(seed);
    let end = Instant::now() + time;
    while Instant::now() < end {
        let seed = seeds.next();
        let tried = catch_unwind(AssertUnwindSafe(|| try_table(seed, counters)));
        if let Err(what) = tried.unwrap_or_else(|_| Err("a panic".to_string())) {
            return Some(format!("table of seed {seed}: {what}"));
        }
    }
    None
}

/// A few calls, one after another, on the table of this seed.
pub fn try_table(seed: u64, counters: &mut Counters) -> Kept {
    let rng = Rng::new(seed);
    let mut store = tables::arbitrary(&rng);
    counters.add("tables");
    for _ in 0..rng.from(1, 6) {
        try_call(&mut store, &rng, counters)?;
    }
    Ok(())
}

fn try_call(store: &mut Store, rng: &Rng, counters: &mut Counters) -> Kept {
    let key = some_key(store, rng);
    match rng.below(32) {
        0 => promises::formats(&mut store.clone(), counters),
        1..=3 => {
            let session = store.session;
            promises::open(store, counters)?;
            // After a refusal the calls go on with the session there was.
            if store.session.n == 0 {
                store.session = session;
            }
            Ok(())
        }
        4 => promises::sync(store, counters),
        5..=8 => promises::lookup(store, key, counters),
        9..=10 => promises::newest(store, some_meter(store, rng), counters),
        11..=13 => {
            let room = rng.one_of(&[0, 1, 10, 60, 2000]);
            let start = rng.one_of(&[0, key, rng.next()]);
            promises::list(store, start, [room, room + rng.below(2)], counters)
        }
        14..=15 => promises::has_any(store, some_meter(store, rng), counters),
        16..=18 => promises::withdraw(store, key, counters),
        19..=20 => {
            let room = rng.one_of(&[0, 11, 12, 30, rng.below(4000), 100_000]);
            promises::write_file(store, room, counters)
        }
        21..=22 => {
            let length = rng.one_of(&[0, 1, 4, 40]);
            let keys: Vec<u64> = (0..length).map(|_| some_key(store, rng)).collect();
            promises::batch(store, &keys, counters)
        }
        23..=25 => {
            let keys = (0..rng.one_of(&[0, 1, 3, 12, 60])).map(|_| some_key(store, rng));
            let set = keys.filter(|&key| whole(key)).map(|key| (key, !key as u32));
            let file = files::spoilt(&set.collect(), rng);
            promises::read_file(store, &file, counters)
        }
        _ => promises::insert(store, key, rng.next() as u32, counters),
    }
}

/// A meter: often one at which pages are divided, a lost one or any.
pub fn some_meter(store: &Store, rng: &Rng) -> (u16, u32) {
    let lows = match rng.below(3) {
        0 => lost_lows(store).unwrap_or_default(),
        1 => divisions(&store.working),
        _ => Vec::new(),
    };
    let of = if lows.is_empty() {
        some_key(store, rng)
    } else {
        rng.one_of(&lows)
    };
    let (model, serial, _) = parts(of);
    (model, serial)
}

/// Where lost pages start, if the tree can be read.
fn lost_lows(store: &Store) -> Option<Vec<u64>> {
    let n = pages(&store.working, &store.stable)?;
    let tree = zero_fits(&store.working, n).then(|| Tree::read(&store.working, n, 0))?;
    let tree = tree.ok()?;
    let lows = tree.lost().map(|node| node.place.low);
    Some(lows.filter(|low| *low > 0).collect())
}

/// The keys at which pages of kind 2 divide their range.
fn divisions(table: &[u8]) -> Vec<u64> {
    let pages = (0..table.len() / PAGE).map(|number| page::page(table, number as u16));
    let inner = pages.filter(|page| page::kind(page) == KIND_LEAF + 1);
    let keys = inner.flat_map(|page| {
        let count = page::count(page).min(INNER_CAP);
        (1..count).map(|index| page::key_at(page, index))
    });
    keys.collect()
}

/// A key: often of some leaf, or beside one of its entries.
pub fn some_key(store: &Store, rng: &Rng) -> u64 {
    let random = key(7, rng.below(1 << 20) as u32, rng.from(1, 3) as u16);
    if store.working.len() < PAGE || rng.once_in(4) {
        return rng.one_of(&[random, random, rng.next(), 0, u64::MAX]);
    }
    let number = rng.below(store.working.len() / PAGE) as u16;
    let page = page::page(&store.working, number);
    let count = page::count(page).min(page::capacity(KIND_LEAF));
    if page::kind(page) != KIND_LEAF || count == 0 {
        return random;
    }
    let beside = page::key_at(page, rng.below(count));
    rng.one_of(&[beside, beside.wrapping_add(1), beside.wrapping_add(1 << 16)])
}
