//! Counts what a move has shown.

use super::call::Mix;
use super::counters::Counters;
use super::player::Player;
use super::set::Set;
use crate::answer::DONE;
use crate::key::{issues, key};
use crate::layout::{LAST_FINAL, LAST_NUMBER};
use crate::page::{self, Header, PageSet};
use crate::place::Place;
use crate::tree::{Node, Tree};
use std::ops::RangeInclusive;

fn is_inner(node: &Node) -> bool {
    page::kind(&node.shown) > 1
}

/// Whether some key of a place is asked for.
pub(super) fn meets(place: &Place, asked: &RangeInclusive<u64>) -> bool {
    place.low <= *asked.end() && *asked.start() <= place.high
}

impl Player {
    /// Counts what newest has passed over: provisional certificates, and lost pages that hold nothing it asks for.
    pub(super) fn count_newest(
        &self,
        model: u16,
        serial: u32,
        answer: u32,
        counters: &mut Counters,
    ) {
        let asked = issues(model, serial, LAST_FINAL);
        let beyond = key(model, serial, LAST_FINAL + 1)..=key(model, serial, u16::MAX);
        let mut lost = self.tree.iter().flat_map(Tree::lost);
        let left = lost.any(|node| meets(&node.place, &beyond) && !meets(&node.place, &asked));
        counters.add_if(left, "newest that leaves a lost page of its meter");
        if self.states.now.range(beyond).next().is_some() {
            counters.add(match answer {
                DONE => "newest below a provisional one",
                _ => "newest of provisional ones only",
            });
        }
    }

    /// Counts mends and splits by what has gone from W's tree.
    pub(super) fn count_changes(&self, before: &Tree, after: &Tree, counters: &mut Counters) {
        let lost = after.lost().map(|node| node.place).collect::<Vec<_>>();
        for node in before.lost().filter(|node| !lost.contains(&node.place)) {
            match (page::kind(&node.shown), node.above) {
                (1, Some(_)) => counters.add("mended leaves"),
                (1, None) => counters.add("mended roots, leaf"),
                (_, Some(_)) => counters.add("mended pages of kind 2"),
                (_, None) => counters.add("mended roots, kind 2"),
            }
        }
        let children = after.children();
        let gone = |node: &&Node| !children[usize::from(node.place.child)];
        let split: Vec<&Node> = before.nodes.iter().filter(gone).collect();
        counters.add_if(split.len() > 1, "split by one insert: leaf and parent");
        for node in split {
            self.count_split(node, counters);
        }
    }

    fn count_split(&self, node: &Node, counters: &mut Counters) {
        match (page::kind(&node.shown), node.above) {
            (1, above) => {
                let head = Header::of(&node.shown);
                let c = self.store.session.c;
                counters.add_if(above.is_none(), "split root leaves");
                counters.add(match (node.lost || head.built == c, head.birth == c) {
                    (true, true) => "split leaves freed at once",
                    (true, false) => "split leaves that wait, mended now",
                    (false, _) => "split leaves that wait, old",
                });
            }
            (_, Some(_)) => counters.add("split pages of kind 2 below kind 3"),
            (_, None) => counters.add("split roots of kind 2"),
        }
    }

    /// Counts what the opening of a mix has found.
    pub(super) fn count_mix(&self, tree: &Tree, found: &Set, counters: &mut Counters) {
        let root = &tree.nodes[0];
        let lost_above = |above: Option<usize>| above.is_some_and(|above| tree.nodes[above].lost);
        let leaf_root = root.lost && !is_inner(root);
        let inner_root = root.lost && is_inner(root);
        let below = tree.lost().any(|node| lost_above(node.above));
        let between = *found != self.states.base && *found != self.states.now;
        let before = self.tree.as_ref();
        let still = before.is_some_and(|tree| tree.lost().next().is_some());
        counters.add_if(tree.lost().next().is_some(), "mixes with a lost page");
        counters.add_if(tree.lost().any(is_inner), "mixes with a lost inner page");
        counters.add_if(leaf_root, "mixes with a lost root, leaf");
        counters.add_if(inner_root, "mixes with a lost root, kind 2");
        counters.add_if(below, "mixes with lost below lost");
        counters.add_if(between, "mixes with a set between the extremes");
        counters.add_if(still, "mixes of a tree with a lost page");
    }

    /// Counts which pages a mix takes from where.
    pub(super) fn count_pages(&self, mix: Mix, differ: PageSet, counters: &mut Counters) {
        let written = mix.pages & differ;
        let (zero, others) = (differ & 1, differ & !1);
        let both = zero != 0 && others != 0;
        let zero_old = both && written == others;
        counters.add_if(zero_old, "mixes with page 0 old, others new");
        let zero_new = both && written == zero;
        counters.add_if(zero_new, "mixes with page 0 new, others old");
    }

    pub(super) fn count_crash(&self, mix: Mix, differ: PageSet, counters: &mut Counters) {
        let written = mix.pages & differ;
        let inside = mix.inside_sync && self.store.session.c <= LAST_NUMBER;
        counters.add("crashes, all");
        counters.add(match (written.count_ones(), differ == written) {
            (0, _) => "crashes with no page",
            (_, true) => "crashes with all pages",
            (1, _) => "crashes with one page",
            _ => "crashes with some pages",
        });
        counters.add_if(inside, "crashes inside a sync");
        counters.add_if(self.crashed, "crashes after a crash without a sync");
    }
}
