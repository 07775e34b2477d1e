//! What holds between any two calls of a store that only the calls and crashes have touched.
//!
//! S is the stable table, W the working table, c the counter. A *node* is a place of the tree
//! as it stands. The six parts A to F together make every mix of S and W open well: a crash
//! leaves each page in the one state or the other.

use crate::field::get32;
use crate::layout::{zero, KIND_LEAF, PAGES_MOST};
use crate::page::{self, Header, InnerEntry, LeafEntry, Page};
use crate::place::Place;
use crate::session::Session;
use crate::store::Store;
use crate::tree::{Node, Tree};

pub type Check = Result<(), String>;

/// One table and its tree.
pub struct Side<'a> {
    pub table: &'a [u8],
    pub tree: Tree,
    pub children: [bool; PAGES_MOST],
    pub lost_previous: [bool; PAGES_MOST],
}

impl<'a> Side<'a> {
    fn new(table: &'a [u8], n: u16, name: &str) -> Result<Side<'a>, String> {
        let tree = Tree::good(table, n).ok_or(format!("D: {name} fails the opening tests"))?;
        Ok(Side {
            table,
            children: tree.children(),
            lost_previous: tree.lost_previous(),
            tree,
        })
    }

    pub fn page(&self, number: u16) -> &'a Page {
        page::page(self.table, number)
    }

    fn is_child(&self, number: u16) -> bool {
        self.children[usize::from(number)]
    }

    /// The node that has this child number.
    fn node(&self, child: u16) -> Option<&Node> {
        self.tree
            .nodes
            .iter()
            .find(|node| node.place.child == child)
    }

    /// The page that a node is shown from.
    fn source(&self, node: &Node) -> u16 {
        if node.lost {
            node.place.previous
        } else {
            node.place.child
        }
    }
}

/// A store between two calls.
pub struct View<'a> {
    pub s: Side<'a>,
    pub w: Side<'a>,
    pub session: &'a Session,
    /// Whether a key has had a record, or has been absent, since the last sync or opening.
    pub had: Had<'a>,
}

/// Of a key and its state.
type Had<'a> = &'a dyn Fn(u64, Option<u32>) -> bool;

/// Reads both trees and checks A to F.
pub fn check<'a>(store: &'a Store, had: Had<'a>) -> Result<View<'a>, String> {
    let view = View::new(store, had)?;
    view.a()?;
    view.b()?;
    view.c()?;
    view.d()?;
    view.e()?;
    view.f()?;
    Ok(view)
}

fn must(holds: bool, part: &str, place: &Place) -> Check {
    if holds {
        Ok(())
    } else {
        Err(format!("{part} at {place:?}"))
    }
}

/// An inner page's entries with a key in low to high, each with the high of its child.
fn ranges(inner: &Page, low: u64, high: u64) -> Vec<(InnerEntry, u64)> {
    (0..page::count(inner))
        .map(|i| (page::inner_entry(inner, i), Place::below(inner, i).high))
        .filter(|(entry, _)| low <= entry.key && entry.key <= high)
        .collect()
}

/// Whether new entries refine old ones: each old one stands unchanged, or two or more of
/// birth c tile its range; and there are no others.
fn refines(new: &[(InnerEntry, u64)], old: &[(InnerEntry, u64)], c: u32) -> bool {
    let mut rest = new;
    for &(entry, high) in old {
        let within = rest.iter().take_while(|(new, _)| new.key <= high).count();
        let (part, after) = rest.split_at(within);
        rest = after;
        let kept = part == [(entry, high)];
        let tiled = part.len() >= 2
            && part[0].0.key == entry.key
            && part[part.len() - 1].1 == high
            && part.iter().all(|(new, _)| new.birth == c);
        if !kept && !tiled {
            return false;
        }
    }
    rest.is_empty()
}

impl<'a> View<'a> {
    fn new(store: &'a Store, had: Had<'a>) -> Result<View<'a>, String> {
        let n = store.session.n;
        let w = Side::new(&store.working, n, "W")?;
        Ok(View {
            s: Side::new(&store.stable, n, "S")?,
            session: &store.session,
            had,
            w,
        })
    }

    /// A: the number is c + 1 in both; page 0 differs at most in root, previous and birth.
    fn a(&self) -> Check {
        let number = self.session.c + 1;
        let (s, w) = (self.s.page(0), self.w.page(0));
        let same = s[..zero::ROOT] == w[..zero::ROOT] && s[zero::END..] == w[zero::END..];
        if same && get32(s, zero::NUMBER) == number {
            Ok(())
        } else {
            Err(format!("A: page 0 at counter {}", self.session.c))
        }
    }

    /// B: in S every birth, and built of what fits, is below c; in W none is above.
    fn b(&self) -> Check {
        for (side, most) in [(&self.s, self.session.c - 1), (&self.w, self.session.c)] {
            for p in 1..self.session.n {
                if Header::of(side.page(p)).birth > most {
                    return Err(format!("B: birth of page {p}"));
                }
            }
            for node in &side.tree.nodes {
                must(node.place.birth <= most, "B: birth", &node.place)?;
                let built = Header::of(side.page(node.place.child)).built;
                must(node.lost || built <= most, "B: built", &node.place)?;
            }
        }
        Ok(())
    }

    /// C: free pages are named by neither tree nor needed for a mend; waiting pages are those
    /// that only S has; no page that S may mend from is a child in W.
    fn c(&self) -> Check {
        for p in 1..usize::from(self.session.n) {
            let (s, w) = (self.s.children[p], self.w.children[p]);
            let mends = self.s.lost_previous[p];
            let (free, waiting) = (self.session.free[p], self.session.waiting[p]);
            let good = !(free && (s || w || mends || waiting))
                && !(waiting && mends)
                && waiting == (s && !w)
                && !(mends && w);
            if !good {
                return Err(format!(
                    "C: page {p}: free {free}, waiting {waiting}, in S {s}, in W {w}, mends {mends}"
                ));
            }
        }
        Ok(())
    }

    /// D: both trees are good (read in `new`); what is lost in W is lost in S, with S's bytes.
    fn d(&self) -> Check {
        for node in self.w.tree.lost() {
            let child = node.place.child;
            let same = self.s.tree.lost().any(|old| old.place == node.place)
                && self.w.page(child) == self.s.page(child);
            must(same, "D: lost in W", &node.place)?;
        }
        Ok(())
    }

    /// E: what W has where S's tree looks.
    fn e(&self) -> Check {
        for node in &self.s.tree.nodes {
            let place = &node.place;
            match (node.lost, page::kind(&node.shown) == KIND_LEAF) {
                (false, false) => must(self.e1(node), "E1: fitting inner page", place)?,
                (false, true) => must(self.e2(node), "E2: fitting leaf", place)?,
                (true, _) => {
                    must(self.e3(node), "E3: lost page", place)?;
                    let from = place.previous;
                    let kept = self.w.page(from) == self.s.page(from);
                    must(kept, "E4: previous of a lost page", place)?;
                }
            }
            must(self.e5(node), "E5: entries of a leaf", place)?;
        }
        Ok(())
    }

    /// E1: W's page fits, of the same kind and built; it is S's page, or refines it in W's tree.
    fn e1(&self, node: &Node) -> bool {
        let (old, new) = (&node.shown, self.w.page(node.place.child));
        let (was, is) = (Header::of(old), Header::of(new));
        node.place.fits(new, self.session.n)
            && was.kind == is.kind
            && was.built == is.built
            && (old == new || is.touched == self.session.c && self.grown(node))
    }

    /// E2: W's page fits, with the same built, and shows states that its keys have had.
    fn e2(&self, node: &Node) -> bool {
        let (old, new) = (&node.shown, self.w.page(node.place.child));
        let (was, is) = (Header::of(old), Header::of(new));
        node.place.fits(new, self.session.n)
            && was.built == is.built
            && (old == new || is.touched == self.session.c && self.grown(node))
    }

    /// E3: W's page is S's, or was mended in this epoch and shows what has come of what S shows.
    fn e3(&self, node: &Node) -> bool {
        let child = node.place.child;
        let new = self.w.page(child);
        let is = Header::of(new);
        let c = self.session.c;
        new == self.s.page(child)
            || node.place.fits(new, self.session.n)
                && is.kind == page::kind(&node.shown)
                && is.built == c
                && is.touched == c
                && self.grown(node)
    }

    /// Whether W's page has what has come of what S shows: a leaf has a state of each key, an inner
    /// page is still in W's tree and refines.
    fn grown(&self, node: &Node) -> bool {
        let Place {
            child, low, high, ..
        } = node.place;
        let new = self.w.page(child);
        if page::kind(&node.shown) == KIND_LEAF {
            let old = page::leaf_entries(&node.shown);
            return page::kind(new) == KIND_LEAF && self.states(old, new);
        }
        let (new, old) = (ranges(new, low, high), ranges(&node.shown, low, high));
        self.w.is_child(child) && refines(&new, &old, self.session.c)
    }

    /// Whether a leaf shows only states that its keys have had: in what it has, and in what it
    /// lacks of these old entries.
    fn states(&self, mut old: impl Iterator<Item = LeafEntry>, leaf: &Page) -> bool {
        page::leaf_entries(leaf).all(|new| (self.had)(new.key, Some(new.record)))
            && old.all(|old| page::find(leaf, old.key).is_some() || (self.had)(old.key, None))
    }

    /// E5: a leaf of W that fits a place of S shows only states that its keys have had. What W's
    /// tree shows they have: this is about waiting leaves.
    fn e5(&self, node: &Node) -> bool {
        let child = node.place.child;
        let new = self.w.page(child);
        page::kind(new) != KIND_LEAF
            || self.w.node(child).is_some_and(|shown| !shown.lost)
            || !node.place.fits(new, self.session.n)
            || self.states(std::iter::empty(), new)
    }

    /// F: what W's tree has.
    fn f(&self) -> Check {
        for node in &self.w.tree.nodes {
            let place = &node.place;
            if place.birth < self.session.c {
                let old = self.s.node(place.child);
                let same = old.is_some_and(|old| old.place == *place);
                must(same, "F1: old place", place)?;
            } else {
                must(self.f2(node), "F2: new page", place)?;
                let shadowed = self.s.tree.nodes.iter().any(|old| self.shadow(node, old));
                must(shadowed, "F2 to F5: shadow of a new page", place)?;
            }
        }
        Ok(())
    }

    /// F2: a place born in this epoch fits, was built in it, and its number is new.
    fn f2(&self, node: &Node) -> bool {
        let c = self.session.c;
        let child = usize::from(node.place.child);
        let head = Header::of(&node.shown);
        !node.lost
            && head.built == c
            && head.touched == c
            && !self.s.children[child]
            && !self.s.lost_previous[child]
    }

    /// Whether a node of S is the shadow of a new one: gone from W, covering it, shown from
    /// the page that the new one names as previous.
    fn shadow(&self, node: &Node, old: &Node) -> bool {
        let (new, o) = (&node.place, &old.place);
        let gone = !self.w.is_child(o.child)
            && o.low <= new.low
            && new.high <= o.high
            && new.previous == self.s.source(old);
        gone && match new.kind {
            None => o.kind.is_none() && self.f3(node, old),
            Some(kind) if kind != page::kind(&old.shown) => false,
            Some(KIND_LEAF) => self.f5(node, old),
            Some(_) => self.f4(node, old),
        }
    }

    /// F3: a new root stands one kind above S's, and all its entries are new.
    fn f3(&self, node: &Node, old: &Node) -> bool {
        page::kind(&node.shown) == page::kind(&old.shown) + 1
            && page::inner_entries(&node.shown).all(|entry| entry.birth == self.session.c)
    }

    /// F4: a new inner half is cut between old entries and refines its part of them.
    fn f4(&self, node: &Node, old: &Node) -> bool {
        let Place { low, high, .. } = node.place;
        let starts = |key| page::inner_entries(&old.shown).any(|entry| entry.key == key);
        let (new, cut) = (
            ranges(&node.shown, low, high),
            ranges(&old.shown, low, high),
        );
        !old.lost
            && starts(low)
            && (high == old.place.high || starts(high + 1))
            && refines(&new, &cut, self.session.c)
    }

    /// F5: a new leaf has what has come of what S shows in its range.
    fn f5(&self, node: &Node, old: &Node) -> bool {
        let within = page::leaf_entries(&old.shown).filter(|entry| node.place.holds(entry.key));
        self.states(within, &node.shown)
    }
}
