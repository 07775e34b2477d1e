//! What a run has met, and what it should have met.

use super::player::Player;
use crate::answer::WORDS;
use crate::layout::INNER_CAP;
use std::collections::BTreeMap;
use std::fmt;

/// The calls, as counted.
#[derive(Clone, Copy)]
pub enum Counted {
    Open,
    Insert,
    Withdraw,
    Batch,
    Lookup,
    Newest,
    HasAny,
    List,
    Sync,
}

/// Each call with the answers that a history can bring about: three comes only from bytes
/// that no call wrote.
const ANSWERS: &[(&str, &[usize])] = &[
    ("open", &[0, 1, 8]),
    ("insert", &[0, 1, 2, 5, 6, 7]),
    ("withdraw", &[0, 1, 2, 4]),
    ("batch", &[0, 1]),
    ("lookup", &[0, 1, 2, 4]),
    ("newest", &[0, 1, 2, 4]),
    ("has_any", &[0, 1, 2]),
    ("list", &[0, 1]),
    ("sync", &[0, 1, 8]),
];

/// What else is counted and can be reached at any capacity.
const NAMED: &[&str] = &[
    "histories",
    "histories ending with a leaf as root",
    "histories ending with a root of kind 2",
    "histories ending with a root of kind 3",
    "states checked",
    "mended leaves",
    "mended pages of kind 2",
    "mended roots, leaf",
    "mended roots, kind 2",
    "split leaves that wait, old",
    "split leaves that wait, mended now",
    "split root leaves",
    "split roots of kind 2",
    "split by one insert: leaf and parent",
    "full, helped by a sync",
    "full, not helped by a sync",
    "lists, empty",
    "lists cut short",
    "lists to the end",
    "crashes with no page",
    "crashes with all pages",
    "crashes with one page",
    "crashes with some pages",
    "crashes inside a sync",
    "crashes after a crash without a sync",
    "crashes, all",
    "openings without a crash",
    "mixes opened on copies",
    "states with all mixes opened",
    "mixes with a lost page",
    "mixes with a lost inner page",
    "mixes with a lost root, leaf",
    "mixes with a lost root, kind 2",
    "mixes with lost below lost",
    "mixes with page 0 old, others new",
    "mixes with page 0 new, others old",
    "mixes with a set between the extremes",
    "mixes with the counter spent",
    "mixes of a tree with a lost page",
    "reports of an unsound page",
    "reports of a page of another kind",
    "reports of a page of another birth",
    "reports of two mends and more",
    "reports beside a refusal",
    "newest below a provisional one",
    "newest of provisional ones only",
    "newest that leaves a lost page of its meter",
    "meters with a certificate",
    "meters without one",
    "has-any that leaves a lost page of its meter",
    "mixes with a state of the middle",
    "mixes with a withdrawn key back",
    "mixes with an empty leaf",
    "quiet restarts",
    "quiet restarts with a mended page written",
    "quiet restarts with a mended page not written",
    "quiet restarts with many mended pages",
    "quiet stretches with all restarts",
    "batches, empty",
    "batches with a bad key",
    "batches with a present key",
    "batches with an item tried after a syncfirst",
    "batches with an item done after a full",
    "files carried over whole",
    "files carried over in part",
];

/// Reached only where a page that has just been split off, or a new root, has room: not where
/// two entries fill an inner page.
const NAMED_ROOMY: [&str; 2] = [
    "split leaves freed at once",
    "split pages of kind 2 below kind 3",
];

/// Reached only where 128 pages are enough to fill a root of kind 3.
const NAMED_SMALL: [&str; 2] = ["full, kind 3 root must split", "syncfirst at kind 3"];

/// Whether a run at these capacities can reach a counter.
fn can_be_reached(name: &str) -> bool {
    let roomy = INNER_CAP > 2 || !NAMED_ROOMY.contains(&name);
    let small = INNER_CAP < 5 || !NAMED_SMALL.contains(&name);
    roomy && small
}

pub struct Counters {
    answers: [[u64; 9]; ANSWERS.len()],
    named: BTreeMap<&'static str, u64>,
}

impl Counters {
    pub fn new() -> Counters {
        let names = NAMED.iter().chain(&NAMED_ROOMY).chain(&NAMED_SMALL);
        Counters {
            answers: [[0; 9]; ANSWERS.len()],
            named: names.map(|name| (*name, 0)).collect(),
        }
    }

    pub fn add(&mut self, name: &'static str) {
        *self.named.get_mut(name).expect("a counter by that name") += 1;
    }

    pub fn add_if(&mut self, holds: bool, name: &'static str) {
        if holds {
            self.add(name);
        }
    }

    pub fn answer(&mut self, call: Counted, answer: u32) {
        self.answers[call as usize][answer as usize] += 1;
    }

    pub fn of(&self, name: &str) -> u64 {
        self.named[name]
    }

    /// Counts the end of a history.
    pub fn end(&mut self, player: &Player) {
        match player.root_kind() {
            1 => self.add("histories ending with a leaf as root"),
            2 => self.add("histories ending with a root of kind 2"),
            _ => self.add("histories ending with a root of kind 3"),
        }
    }

    /// Every counter that can be reached, with its name.
    fn reachable(&self) -> Vec<(String, u64)> {
        let answers = ANSWERS.iter().zip(&self.answers).flat_map(|(row, counts)| {
            row.1
                .iter()
                .map(move |&answer| (format!("{} {}", row.0, WORDS[answer]), counts[answer]))
        });
        let named = self.named.iter().filter(|(name, _)| can_be_reached(name));
        let named = named.map(|(name, count)| (name.to_string(), *count));
        answers.chain(named).collect()
    }

    /// The smallest of them.
    pub fn smallest(&self) -> (String, u64) {
        let least = self.reachable().into_iter().min_by_key(|(_, count)| *count);
        least.expect("there are counters")
    }

    /// Those that stayed 0.
    pub fn missing(&self) -> Vec<String> {
        let zero = self
            .reachable()
            .into_iter()
            .filter(|(_, count)| *count == 0);
        zero.map(|(name, _)| name).collect()
    }
}

impl Default for Counters {
    fn default() -> Counters {
        Counters::new()
    }
}

impl fmt::Display for Counters {
    fn fmt(&self, out: &mut fmt::Formatter) -> fmt::Result {
        for (name, count) in self.reachable() {
            writeln!(out, "{count:>12}  {name}")?;
        }
        let (name, count) = self.smallest();
        write!(out, "smallest counter: {count} ({name})")
    }
}
