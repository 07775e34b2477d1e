//! The tree as it stands: what entering every page would show, read off an unchanged table.

use crate::layout::{KIND_LEAF, PAGES_MOST};
use crate::page::{self, LeafEntry, Page};
use crate::place::Place;
use crate::walk::{zero_fits, Damaged};
use crate::way::Way;

/// One place of the tree and the page it shows.
#[derive(Clone)]
pub struct Node {
    pub place: Place,
    /// The node above, as an index into the tree's nodes.
    pub above: Option<usize>,
    pub lost: bool,
    pub shown: Page,
}

/// All nodes, each before those below it, in key order.
#[derive(Clone, Default)]
pub struct Tree {
    pub nodes: Vec<Node>,
}

impl Tree {
    /// Reads the tree of a table whose page 0 is fit. A lost place shows what mending with
    /// counter c would build.
    pub fn read(table: &[u8], n: u16, c: u32) -> Result<Tree, Damaged> {
        let mut tree = Tree::default();
        tree.walk(table, n, c, Place::root(table), None, &mut Way::new())?;
        Ok(tree)
    }

    fn walk(
        &mut self,
        table: &[u8],
        n: u16,
        c: u32,
        place: Place,
        above: Option<usize>,
        way: &mut Way,
    ) -> Result<(), Damaged> {
        if way.holds(place.child) {
            return Err(Damaged);
        }
        let child = page::page(table, place.child);
        let lost = !place.fits(child, n);
        let shown = if lost {
            place.mended(place.source(table, n).ok_or(Damaged)?, c)
        } else {
            *child
        };
        let own = self.nodes.len();
        self.nodes.push(Node {
            place,
            above,
            lost,
            shown,
        });
        if page::kind(&shown) != KIND_LEAF {
            way.push(place, 0);
            for index in 0..page::count(&shown) {
                self.walk(table, n, c, Place::below(&shown, index), Some(own), way)?;
            }
            way.pop();
        }
        Ok(())
    }

    /// The tree, if the table passes every test of an opening on its pages.
    pub fn good(table: &[u8], n: u16) -> Option<Tree> {
        if !zero_fits(table, n) {
            return None;
        }
        let tree = Tree::read(table, n, 0).ok()?;
        let children = tree.children();
        let named_once = children.iter().filter(|&&named| named).count() == tree.nodes.len();
        let apart = tree
            .lost()
            .all(|node| !children[usize::from(node.place.previous)]);
        (named_once && apart).then_some(tree)
    }

    pub fn lost(&self) -> impl Iterator<Item = &Node> {
        self.nodes.iter().filter(|node| node.lost)
    }

    /// The numbers named as child.
    pub fn children(&self) -> [bool; PAGES_MOST] {
        let mut named = [false; PAGES_MOST];
        for node in &self.nodes {
            named[usize::from(node.place.child)] = true;
        }
        named
    }

    /// The numbers named as previous by a lost entry.
    pub fn lost_previous(&self) -> [bool; PAGES_MOST] {
        let mut named = [false; PAGES_MOST];
        for node in self.lost() {
            named[usize::from(node.place.previous)] = true;
        }
        named
    }

    /// The entries of all leaves, in key order.
    pub fn entries(&self) -> impl Iterator<Item = LeafEntry> + '_ {
        self.nodes
            .iter()
            .filter(|node| page::kind(&node.shown) == KIND_LEAF)
            .flat_map(|node| page::leaf_entries(&node.shown))
    }
}
