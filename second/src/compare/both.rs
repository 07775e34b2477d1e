//! One call on both stores, and all that it leaves compared.

use crate::answer::{ANSWERS, DONE, WALKING, WORDS};
use crate::batch::Item;
use crate::layout::{LAST_NUMBER, PAGE, PAGES_MOST};
use crate::lean::Lean;
use crate::proved::Proved;
use crate::report::{Report, NO_REASON};
use crate::session::Session;
use crate::store::Store;
use crate::{crash, format, number_ahead};
use std::fmt;

use super::Alike;

/// The reasons of a report, by number.
const REASONS: [&str; 5] = ["none", "soundness", "kind", "birth", "range"];

/// How often each answer and each reason was given, and both agreed.
#[derive(Default)]
pub struct Counters {
    answers: [[u64; WORDS.len()]; ANSWERS.len()],
    reasons: [u64; REASONS.len()],
    pub histories: u64,
    pub tables: u64,
}

impl Counters {
    fn count(&mut self, call: &str, answer: u32, told: Report) {
        let row = ANSWERS.iter().position(|(name, _)| *name == call);
        self.answers[row.expect("a call's name")][answer as usize] += 1;
        if WALKING.contains(&call) {
            self.reasons[told.reason as usize] += 1;
        }
    }

    pub fn calls(&self) -> u64 {
        self.answers.iter().flatten().sum()
    }

    /// The answers that a call can give and never gave, and the reasons that were never told.
    pub fn missing(&self) -> Vec<String> {
        let rows = ANSWERS.iter().zip(&self.answers);
        let answers = rows.flat_map(|((call, answers), counts)| {
            let never = answers.iter().filter(|answer| counts[**answer] == 0);
            never.map(move |answer| format!("{call} {}", WORDS[*answer]))
        });
        let reasons = REASONS.iter().zip(&self.reasons);
        let untold = reasons.filter(|(_, count)| **count == 0);
        answers
            .chain(untold.map(|(reason, _)| format!("reason {reason}")))
            .collect()
    }
}

impl fmt::Display for Counters {
    fn fmt(&self, out: &mut fmt::Formatter) -> fmt::Result {
        for ((call, answers), counts) in ANSWERS.iter().zip(&self.answers) {
            for answer in *answers {
                writeln!(out, "{:>12}  {call} {}", counts[*answer], WORDS[*answer])?;
            }
        }
        for (reason, count) in REASONS.iter().zip(&self.reasons) {
            writeln!(out, "{count:>12}  reason {reason}")?;
        }
        let (calls, histories, tables) = (self.calls(), self.histories, self.tables);
        write!(
            out,
            "{calls} calls alike, in {histories} histories and on {tables} tables"
        )
    }
}

/// Two stores that have had the same calls.
#[derive(Clone)]
pub struct Both {
    pub own: Store,
    pub proved: Proved,
}

impl Both {
    /// Two stores of the same bytes.
    pub fn of(store: Store) -> Both {
        Both {
            proved: Proved(store.clone()),
            own: store,
        }
    }

    /// Fresh from format and open.
    pub fn fresh(n: usize, counters: &mut Counters) -> Alike<Both> {
        let (working, stable) = (vec![0xA5; n * PAGE], vec![0x5A; n * PAGE]);
        let mut both = Both::of(Store::of(working, stable, Session::new(0, 0)));
        both.format(counters)?;
        both.open(counters)?;
        Ok(both)
    }

    pub fn format(&mut self, counters: &mut Counters) -> Alike<u32> {
        let own = format(&self.own.working, &mut self.own.stable);
        let proved = self.proved.format();
        self.alike("format", own, &own, &proved, counters)
    }

    pub fn open(&mut self, counters: &mut Counters) -> Alike<u32> {
        let (own, proved) = (self.own.open(), self.proved.open());
        self.alike("open", own, &own, &proved, counters)
    }

    pub fn insert(&mut self, key: u64, record: u32, counters: &mut Counters) -> Alike<u32> {
        let (own, proved) = (
            self.own.insert(key, record),
            self.proved.insert(key, record),
        );
        self.alike("insert", own, &own, &proved, counters)
    }

    pub fn withdraw(&mut self, key: u64, counters: &mut Counters) -> Alike<u32> {
        let (own, proved) = (self.own.withdraw(key), self.proved.withdraw(key));
        self.alike("withdraw", own, &own, &proved, counters)
    }

    /// The items with their answers. The proved store's single inserts must come to the same as its batch.
    pub fn batch(&mut self, asked: &[(u64, u32)], counters: &mut Counters) -> Alike<Vec<Item>> {
        let mut own: Vec<Item> = asked.iter().map(|&(k, r)| Item::new(k, r)).collect();
        let (mut proved, mut single) = (own.clone(), own.clone());
        let mut other = self.proved.clone();
        let answers = (self.own.batch(&mut own), self.proved.batch(&mut proved));
        self.alike("batch", answers.0, &answers.0, &answers.1, counters)?;
        for (item, &(key, record)) in single.iter_mut().zip(asked) {
            let answer = other.insert(key, record);
            if answers.0 == DONE {
                item.answer = answer;
            }
        }
        if own != proved || own != single || self.proved != other {
            return Err("batch: other answers, or other than single inserts".to_string());
        }
        Ok(own)
    }

    pub fn read_file(&mut self, file: &[u8], counters: &mut Counters) -> Alike<u32> {
        let (own, proved) = (self.own.read_file(file), self.proved.read_file(file));
        self.alike("read_file", own.0, &own, &proved, counters)
    }

    pub fn lookup(&mut self, key: u64, counters: &mut Counters) -> Alike<u32> {
        let mut lean = Lean(self.proved.clone());
        let (own, proved) = (self.own.lookup(key), self.proved.lookup(key));
        self.as_lean("lookup", &proved, &lean.lookup(key), &lean)?;
        self.alike("lookup", own.0, &own, &proved, counters)
    }

    pub fn newest(&mut self, model: u16, serial: u32, counters: &mut Counters) -> Alike<u32> {
        let (answer, issue, record) = self.own.newest(model, serial);
        let own = (answer, u32::from(issue), record);
        let mut lean = Lean(self.proved.clone());
        let proved = self.proved.newest(model, serial);
        self.as_lean("newest", &proved, &lean.newest(model, serial), &lean)?;
        self.alike("newest", answer, &own, &proved, counters)
    }

    pub fn has_any(&mut self, model: u16, serial: u32, counters: &mut Counters) -> Alike<u32> {
        let (answer, any) = self.own.has_any(model, serial);
        let own = (answer, u32::from(any));
        let mut lean = Lean(self.proved.clone());
        let proved = self.proved.has_any(model, serial);
        self.as_lean("has_any", &proved, &lean.has_any(model, serial), &lean)?;
        self.alike("has_any", answer, &own, &proved, counters)
    }

    /// Both lists start with the same marks in every place: what is not filled must keep them.
    pub fn list(
        &mut self,
        start: u64,
        keys: usize,
        records: usize,
        counters: &mut Counters,
    ) -> Alike<u32> {
        let marked = (vec![!start; keys], vec![start as u32; records]);
        let (mut own, mut proved, mut leanly) = (marked.clone(), marked.clone(), marked);
        let mut lean = Lean(self.proved.clone());
        let (answer, count) = self.own.list(start, &mut own.0, &mut own.1);
        let listed = self.proved.list(start, &mut proved.0, &mut proved.1);
        let told = lean.list(start, &mut leanly.0, &mut leanly.1);
        self.as_lean("list", &listed, &told, &lean)?;
        if own != proved || own != leanly {
            return Err(format!("list from {start}: other lists"));
        }
        self.alike("list", answer, &(answer, count as u64), &listed, counters)
    }

    /// An output of so many bytes, with the same marks in each.
    pub fn write_file(&mut self, room: usize, counters: &mut Counters) -> Alike<u32> {
        let marked: Vec<u8> = (0..room).map(|place| place as u8 ^ 0xA5).collect();
        let (mut own, mut proved, mut leanly) = (marked.clone(), marked.clone(), marked);
        let mut lean = Lean(self.proved.clone());
        let (answer, length) = self.own.write_file(&mut own);
        let written = self.proved.write_file(&mut proved);
        let told = lean.write_file(&mut leanly);
        self.as_lean("write_file", &written, &told, &lean)?;
        if own != proved || own != leanly {
            return Err(format!("write_file into {room} bytes: another output"));
        }
        let own = (answer, length as u64);
        self.alike("write_file", answer, &own, &written, counters)
    }

    /// An output that is just as long as the file, and one that is a byte short, on copies.
    pub fn write_files(&self, counters: &mut Counters) -> Alike<()> {
        let mut whole = vec![0; 12 + 18 * 40 * PAGES_MOST];
        let (_, length) = self.own.clone().write_file(&mut whole);
        for room in [length, length.saturating_sub(1), whole.len()] {
            self.clone().write_file(room, counters)?;
        }
        Ok(())
    }

    pub fn sync(&mut self, counters: &mut Counters) -> Alike<u32> {
        let (own, proved) = (self.own.sync(), self.proved.sync());
        self.alike("sync", own, &own, &proved, counters)
    }

    /// The marked pages reach the stable tables, inside a sync or not; then both are opened.
    pub fn crash(
        &mut self,
        pages: &[bool; PAGES_MOST],
        inside_sync: bool,
        counters: &mut Counters,
    ) -> Alike<u32> {
        for store in [&mut self.own, &mut self.proved.0] {
            if inside_sync && store.session.c <= LAST_NUMBER {
                number_ahead(&mut store.working, store.session.c);
            }
            crash(&store.working, &mut store.stable, pages);
        }
        self.open(counters)
    }

    /// Compares what a reading call and its lean form told and left, on stores that were the same before.
    fn as_lean<T: PartialEq + fmt::Debug>(
        &self,
        call: &str,
        proved: &T,
        lean: &T,
        left: &Lean,
    ) -> Alike<()> {
        if proved != lean {
            return Err(format!("lean {call}: {lean:?} is told, not {proved:?}"));
        }
        if left.0 .0.report != self.proved.0.report || left.0 != self.proved {
            return Err(format!("lean {call}: another report or other tables"));
        }
        Ok(())
    }

    /// Compares what a call answered and all that it left; the answer, if they are alike.
    fn alike<T: PartialEq + fmt::Debug>(
        &self,
        call: &str,
        answer: u32,
        own: &T,
        proved: &T,
        counters: &mut Counters,
    ) -> Alike<u32> {
        let other = |what: String| Err(format!("{call}: {what}"));
        let (mine, its) = (&self.own, &self.proved.0);
        if own != proved {
            return other(format!("{proved:?} is answered, not {own:?}"));
        }
        let (told, its_told) = (mine.report, its.report);
        if told != its_told || (told.mended == 0) != (told.reason == NO_REASON) {
            return other(format!("the report is {its_told:?}, not {told:?}"));
        }
        if let Some(part) = other_part(&mine.session, &its.session) {
            return other(format!("the session differs in {part}"));
        }
        if let Some(place) = first_other(&mine.working, &its.working) {
            return other(format!("working differs at {place}"));
        }
        if let Some(place) = first_other(&mine.stable, &its.stable) {
            return other(format!("stable differs at {place}"));
        }
        counters.count(call, answer, told);
        Ok(answer)
    }
}

/// Where two sessions differ first.
fn other_part(own: &Session, proved: &Session) -> Option<String> {
    if own == proved {
        return None;
    }
    let mark = |own: &[bool], proved: &[bool]| (0..PAGES_MOST).find(|&p| own[p] != proved[p]);
    let free = mark(&own.free, &proved.free).map(|page| format!("the free mark of page {page}"));
    let waiting = mark(&own.waiting, &proved.waiting);
    let waiting = waiting.map(|page| format!("the waiting mark of page {page}"));
    free.or(waiting).or(Some("n, c or the total".to_string()))
}

/// Where two tables differ first.
fn first_other(own: &[u8], proved: &[u8]) -> Option<String> {
    if own == proved {
        return None;
    }
    let at = own
        .iter()
        .zip(proved)
        .position(|(own, proved)| own != proved);
    let at = at.unwrap_or(own.len().min(proved.len()));
    Some(format!("page {}, byte {}", at / PAGE, at % PAGE))
}
