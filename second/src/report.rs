//! What a call that walks tells of its mends: how many pages, and why the first of them was lost. Which ones is kept for the checks.

use crate::answer::DONE;
use crate::broken::{broken, Rule};
use crate::page::PageSet;

/// The tests that a page must pass to fit its entry, in this order. The first that fails says why the page is lost.
#[derive(Clone, Copy, PartialEq, Eq, Debug)]
pub enum Reason {
    Soundness = 1,
    Kind = 2,
    Birth = 3,
    Range = 4,
}

/// The reason where no page was mended.
pub const NO_REASON: u32 = 0;

/// Laid out as C lays it out: the proved store hands it back so.
#[derive(Clone, Copy, PartialEq, Eq, Debug, Default)]
#[repr(C)]
pub struct Report {
    pub mended: u32,
    /// Why the first one was lost, by its number.
    pub reason: u32,
}

impl Report {
    /// One more page was mended.
    pub fn add(&mut self, reason: Reason) {
        self.mended = self.mended.wrapping_add(1);
        if self.reason == NO_REASON {
            self.reason = reason as u32;
        }
    }

    /// What a later part of the same call told comes to it.
    pub fn join(&mut self, later: Report) {
        self.mended = self.mended.wrapping_add(later.mended);
        if self.reason == NO_REASON {
            self.reason = later.reason;
        }
    }

    /// The report beside this answer. Other numbers are 0 beside a refusal; mends stand, so the report does too.
    pub fn beside(self, answer: u32) -> Report {
        if answer != DONE && broken(Rule::RefusedReports) {
            Report::default()
        } else {
            self
        }
    }
}

/// The mends of a walk: what the call tells of them, and the pages' numbers.
#[derive(Clone, Copy, PartialEq, Eq, Debug, Default)]
pub struct Mends {
    pub report: Report,
    pub pages: PageSet,
}

impl Mends {
    /// This page was mended.
    pub fn add(&mut self, page: u16, reason: Reason) {
        self.report.add(reason);
        self.pages |= 1 << page;
    }

    /// Those of a further call.
    pub fn join(&mut self, more: Mends) {
        self.report.join(more.report);
        self.pages |= more.pages;
    }

    /// The mends beside this answer.
    pub fn beside(self, answer: u32) -> Mends {
        Mends {
            report: self.report.beside(answer),
            ..self
        }
    }
}
