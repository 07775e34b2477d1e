//! A place in the tree: what a parent says of a child, and whether the child's page agrees.

use crate::broken::{broken, Rule};
use crate::field::{get16, get32};
use crate::layout::{zero, KIND_LEAF};
use crate::page::{self, Header, Page};
use crate::report::Reason;

/// An entry as its child sees it. The root is a child too, and page 0 holds its entry.
#[derive(Clone, Copy, PartialEq, Eq, Debug)]
pub struct Place {
    pub child: u16,
    pub previous: u16,
    pub birth: u32,
    pub low: u64,
    pub high: u64,
    /// The kind asked for; any kind will do for the root.
    pub kind: Option<u16>,
}

impl Place {
    pub fn root(table: &[u8]) -> Place {
        Place {
            child: get16(table, zero::ROOT),
            previous: get16(table, zero::PREVIOUS),
            birth: get32(table, zero::BIRTH),
            low: 0,
            high: u64::MAX,
            kind: None,
        }
    }

    /// The place that an entry of a sound inner page asks for.
    pub fn below(parent: &Page, index: usize) -> Place {
        let entry = page::inner_entry(parent, index);
        let head = Header::of(parent);
        Place {
            child: entry.child,
            previous: entry.previous,
            birth: entry.birth,
            low: entry.key,
            high: if index + 1 < head.count {
                page::key_at(parent, index + 1) - 1
            } else {
                head.high
            },
            kind: Some(head.kind - 1),
        }
    }

    pub fn asks_for(&self, kind: u16) -> bool {
        self.kind.is_none_or(|asked| asked == kind)
    }

    /// Whether the range holds the key.
    pub fn holds(&self, key: u64) -> bool {
        self.low <= key && key <= self.high
    }

    /// Whether the page fits this entry.
    pub fn fits(&self, child: &Page, n: u16) -> bool {
        self.fails(child, n).is_none()
    }

    /// The first test that the page fails; none if it fits. Births are compared because a page used again may
    /// have the same range.
    pub fn fails(&self, child: &Page, n: u16) -> Option<Reason> {
        let head = Header::of(child);
        let born = head.birth == self.birth || broken(Rule::BirthsCompared);
        if !born && broken(Rule::ReasonOrder) {
            Some(Reason::Birth)
        } else if !page::sound(child, n) {
            Some(Reason::Soundness)
        } else if !self.asks_for(head.kind) {
            Some(Reason::Kind)
        } else if !born {
            Some(Reason::Birth)
        } else if (head.low, head.high) != (self.low, self.high) {
            Some(Reason::Range)
        } else {
            None
        }
    }

    /// The previous page, if a lost child can be mended from it.
    pub fn source<'a>(&self, table: &'a [u8], n: u16) -> Option<&'a Page> {
        if self.previous == 0 || self.previous >= n || self.previous == self.child {
            return None;
        }
        let previous = page::page(table, self.previous);
        let head = Header::of(previous);
        let good = self.asks_for(head.kind)
            && head.low <= self.low
            && self.high <= head.high
            && page::sound(previous, n)
            && (head.kind == KIND_LEAF || self.starts_in(previous));
        good.then_some(previous)
    }

    /// Whether a sound inner page has an entry at this place's low.
    fn starts_in(&self, inner: &Page) -> bool {
        let index = page::below(inner, self.low);
        index < page::count(inner) && page::key_at(inner, index) == self.low
    }

    /// The page that mending builds from its source: the entries in range, as the parent says.
    pub fn mended(&self, source: &Page, c: u32) -> Page {
        let old = Header::of(source);
        let from = page::below(source, self.low);
        let to = match self.high.checked_add(1) {
            Some(after) => page::below(source, after),
            None => old.count,
        };
        let head = Header {
            birth: self.birth,
            built: if broken(Rule::MendBuilt) {
                old.built
            } else {
                c
            },
            touched: if broken(Rule::MendTouched) {
                old.touched
            } else {
                c
            },
            low: self.low,
            high: self.high,
            ..old
        };
        page::cut(source, from..to, head)
    }
}
