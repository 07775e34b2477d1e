//! Rounds of measuring, and the table of the best times.

use super::subject::Subject;
use super::Certificates;
use std::fmt;
use std::time::Instant;

const ROWS: [&str; 9] = [
    "lookup, present",
    "lookup, absent",
    "newest",
    "list, per entry",
    "insert, all kept, each",
    "sync after one insert",
    "open",
    "lookup that mends a leaf",
    "refused at once",
];

/// Lists in a round: one alone is over before the processor has learnt its way.
const LISTS: usize = 10;

pub struct Table {
    subjects: Vec<Box<dyn Subject>>,
    /// The best time of each row, for each subject; none where there is no such thing.
    best: Vec<[Option<f64>; ROWS.len()]>,
}

/// The time of `work` in ns, for each of `times`.
fn each(times: usize, work: impl FnOnce()) -> f64 {
    let start = Instant::now();
    work();
    start.elapsed().as_nanos() as f64 / times as f64
}

impl Table {
    pub fn new(subjects: Vec<Box<dyn Subject>>) -> Table {
        let best = vec![[None; ROWS.len()]; subjects.len()];
        Table { subjects, best }
    }

    /// Every row once, for each subject in turn.
    pub fn round(&mut self, all: &Certificates) {
        for (subject, best) in self.subjects.iter_mut().zip(&mut self.best) {
            for (best, time) in best.iter_mut().zip(round(subject.as_mut(), all)) {
                *best = match (*best, time) {
                    (Some(best), Some(time)) => Some(best.min(time)),
                    (_, time) => time,
                };
            }
        }
    }
}

fn round(subject: &mut dyn Subject, all: &Certificates) -> [Option<f64>; ROWS.len()] {
    let count = all.keys.len();
    let mut records = vec![0; count];
    subject.clear();
    let insert = each(count, || subject.fill(&all.keys, &all.records));
    let present = each(count, || {
        assert_eq!(subject.lookups(&all.keys, &mut records), count);
    });
    assert_eq!(records, all.records);
    let absent = each(count, || {
        assert_eq!(subject.lookups(&all.absent, &mut records), 0);
    });
    let newest = each(count, || {
        assert_eq!(subject.newests(&all.meters, &mut records), count);
    });
    let list = each(count * LISTS, || {
        for _ in 0..LISTS {
            assert_eq!(subject.list(), count);
        }
    });
    subject.put(all.absent[0], 1);
    let sync = each(1, || subject.sync());
    let mut opened = false;
    let open = each(1, || opened = subject.open());
    let mut mends = false;
    let mend = each(count, || mends = subject.mend(count));
    let mut refuses = false;
    let refused = each(count, || refuses = subject.refused(count));
    [
        Some(present),
        Some(absent),
        Some(newest),
        Some(list),
        Some(insert),
        Some(sync),
        opened.then_some(open),
        mends.then_some(mend),
        refuses.then_some(refused),
    ]
}

impl fmt::Display for Table {
    fn fmt(&self, out: &mut fmt::Formatter) -> fmt::Result {
        write!(out, "{:26}", "")?;
        for subject in &self.subjects {
            write!(out, "{:>20}", subject.name())?;
        }
        for (row, name) in ROWS.iter().enumerate() {
            write!(out, "\n{name:26}")?;
            let first = self.best[0][row];
            for best in &self.best {
                match (best[row], first) {
                    (Some(time), Some(first)) => {
                        write!(out, "{time:>12.1} ({:>5.2})", first / time)?
                    }
                    (Some(time), None) => write!(out, "{time:>12.1} (  -  )")?,
                    (None, _) => write!(out, "{:>20}", "-")?,
                }
            }
        }
        let first = self.subjects[0].name();
        write!(
            out,
            "\nin brackets: the time of {first} over that of this one"
        )
    }
}
