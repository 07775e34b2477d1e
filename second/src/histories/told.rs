//! What a call should tell of its mends, read off W's tree before it.

use super::counters::Counters;
use super::observe::meets;
use super::player::{must, Played, Player, Watch};
use crate::answer::DONE;
use crate::key::{issues, whole};
use crate::layout::KIND_LEAF;
use crate::page;
use crate::reasons::{first_failing, report};
use crate::report::{Reason, Report};
use std::ops::RangeInclusive;

/// The reasons that calls and crashes bring about, with their counters. A range is never the first that differs:
/// the page would have the birth of another place.
const REASONS: [(Reason, &str); 3] = [
    (Reason::Soundness, "reports of an unsound page"),
    (Reason::Kind, "reports of a page of another kind"),
    (Reason::Birth, "reports of a page of another birth"),
];

impl Player {
    /// The report of a walk through this range with this room; none while the tree isn't at hand.
    pub(super) fn walk_tells(&self, asked: RangeInclusive<u64>, room: usize) -> Option<Report> {
        let mut reasons = Vec::new();
        let mut room = room;
        for node in &self.tree.as_ref()?.nodes {
            let place = &node.place;
            if room == 0 || !meets(place, &asked) {
                continue;
            }
            if node.lost {
                let child = page::page(&self.store.working, place.child);
                reasons.push(first_failing(place, child, self.store.session.n));
            }
            if page::kind(&node.shown) == KIND_LEAF {
                let shown = page::leaf_entries(&node.shown);
                room -= shown
                    .filter(|entry| asked.contains(&entry.key))
                    .count()
                    .min(room);
            }
        }
        Some(report(&reasons))
    }

    /// The report of a walk to this key; a bad one is refused before the walk.
    pub(super) fn walk_tells_of(&self, key: u64) -> Option<Report> {
        if whole(key) {
            self.walk_tells(key..=key, usize::MAX)
        } else {
            Some(Report::default())
        }
    }

    /// The report of a walk through a meter's issues up to this one; a bad meter is refused before the walk.
    pub(super) fn meter_tells(&self, meter: (u16, u32), last: u16, room: usize) -> Option<Report> {
        match meter {
            (0, _) | (_, 0) => Some(Report::default()),
            (model, serial) => self.walk_tells(issues(model, serial, last), room),
        }
    }

    /// Checks and counts what the last call told; demand 3 says nothing of it.
    pub(super) fn told(
        &self,
        expected: Option<Report>,
        answer: u32,
        counters: &mut Counters,
    ) -> Played {
        if self.watch == Watch::Demand {
            return Ok(());
        }
        let told = self.store.report;
        must(expected.is_none_or(|expected| told == expected), || {
            format!("the call tells {told:?}, not {expected:?}")
        })?;
        if told == Report::default() {
            return Ok(());
        }
        counters.add_if(answer != DONE, "reports beside a refusal");
        counters.add_if(told.mended > 1, "reports of two mends and more");
        let known = REASONS
            .iter()
            .find(|(reason, _)| *reason as u32 == told.reason);
        let (_, name) = known.ok_or(format!("the call tells {told:?}"))?;
        counters.add(name);
        Ok(())
    }
}
