//! A batch, held against single inserts in list order.

use super::counters::{Counted, Counters};
use super::player::{must, Played, Player};
use crate::answer::{BADKEY, DONE, FULL, PRESENT, SYNCFIRST};
use crate::batch::Item;
use crate::report::Report;

impl Player {
    /// The history goes on with the single inserts, each checked; the batch on a copy must come to the same.
    pub(super) fn batch(&mut self, asked: &[(u64, u32)], counters: &mut Counters) -> Played {
        let mut copy = self.store.clone();
        let mut items: Vec<Item> = asked.iter().map(|&(k, r)| Item::new(k, r)).collect();
        let answer = copy.batch(&mut items);
        counters.answer(Counted::Batch, answer);
        let mut told = Report::default();
        let mut answers = Vec::new();
        for &(key, record) in asked {
            self.insert(key, record, counters)?;
            // The tree read before the batch says nothing of the next item.
            self.tree = None;
            told.join(self.store.report);
            answers.push(self.answer);
        }
        let given = items.iter().map(|item| item.answer);
        let alike = given.eq(answers.iter().copied()) && copy == self.store && copy.report == told;
        must(answer == DONE && alike, || {
            "a batch differs from single inserts".to_string()
        })?;
        count(&answers, counters);
        Ok(())
    }
}

fn count(answers: &[u32], counters: &mut Counters) {
    let after = |refusal| answers.iter().skip_while(move |&&a| a != refusal).skip(1);
    counters.add_if(answers.is_empty(), "batches, empty");
    counters.add_if(answers.contains(&BADKEY), "batches with a bad key");
    counters.add_if(answers.contains(&PRESENT), "batches with a present key");
    let tried = after(SYNCFIRST).next().is_some();
    counters.add_if(tried, "batches with an item tried after a syncfirst");
    let done = after(FULL).any(|&answer| answer == DONE);
    counters.add_if(done, "batches with an item done after a full");
}
