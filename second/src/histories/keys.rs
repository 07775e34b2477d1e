//! Keys of a history: ascending, descending, clustered, of few meters, random, or beside what is there.

use super::player::Player;
use crate::key::{key, parts, whole};
use crate::layout::{KIND_LEAF, LAST_FINAL};
use crate::page::{self, capacity};
use crate::rng::Rng;
use crate::tree::{Node, Tree};

#[derive(Clone, Copy)]
pub enum Pattern {
    Ascending,
    Descending,
    Clustered,
    /// Many issues of few meters, provisional ones among them.
    Meters,
    Random,
}

pub struct Patterns {
    pattern: Pattern,
    next: u32,
}

/// Where descending serials start.
const HIGHEST: u32 = 3_000_000;
/// Serials of a cluster.
const CLUSTER: usize = 40;
/// Meters with many issues.
const METERS: usize = 3;
/// So many issues on both sides of the last one that is not provisional are taken more often.
const BESIDE: usize = 8;

impl Patterns {
    pub fn new(rng: &Rng) -> Patterns {
        let all = [
            Pattern::Ascending,
            Pattern::Ascending,
            Pattern::Ascending,
            Pattern::Descending,
            Pattern::Clustered,
            Pattern::Meters,
            Pattern::Random,
        ];
        Patterns {
            pattern: rng.one_of(&all),
            next: 1,
        }
    }

    /// The next key of the pattern; clusters may give one that was given before.
    pub fn key(&mut self, rng: &Rng) -> u64 {
        let serial = self.next;
        self.next += 1;
        match self.pattern {
            Pattern::Ascending => key(7, serial, 1),
            Pattern::Descending => key(7, HIGHEST - serial, 1),
            Pattern::Clustered => {
                let centre = 1000 * rng.from(1, 30);
                key(
                    7,
                    (centre + rng.below(CLUSTER)) as u32,
                    rng.from(1, 3) as u16,
                )
            }
            Pattern::Meters => {
                let middle = usize::from(LAST_FINAL);
                let beside = rng.from(middle - BESIDE, middle + BESIDE);
                let issue = rng.one_of(&[beside, rng.from(1, 65_535), rng.from(1, 65_535)]);
                key(7, rng.from(1, METERS) as u32, issue as u16)
            }
            Pattern::Random => loop {
                let random = rng.next();
                if whole(random) {
                    return random;
                }
            },
        }
    }

    /// Keys to start with, the first one last. In two passes each meter gets its second issue, or a
    /// provisional one, after all have their first: leaves that were left half full then fill up.
    pub fn load(&mut self, count: usize, rng: &Rng) -> Vec<u64> {
        let in_order = matches!(self.pattern, Pattern::Ascending | Pattern::Descending);
        let twice = in_order && !rng.once_in(3);
        let mut keys: Vec<u64> = (0..count).map(|_| self.key(rng)).collect();
        if twice {
            let step = rng.one_of(&[1, u64::from(LAST_FINAL)]);
            keys.extend(keys.clone().iter().map(|key| key + step));
        }
        keys.reverse();
        keys
    }
}

/// Leaves beside whose entries a key may be wanted.
#[derive(Clone, Copy, PartialEq, Eq)]
pub enum Wanted {
    Any,
    Lost,
    Full,
    /// Full and not lost, below a parent that is full too.
    BelowFull,
}

impl Wanted {
    fn is(self, tree: &Tree, node: &Node) -> bool {
        let full = |node: &Node| page::count(&node.shown) == capacity(page::kind(&node.shown));
        let above = || node.above.is_some_and(|above| full(&tree.nodes[above]));
        page::kind(&node.shown) == KIND_LEAF
            && page::count(&node.shown) > 0
            && match self {
                Wanted::Any => true,
                Wanted::Lost => node.lost,
                Wanted::Full => full(node),
                Wanted::BelowFull => full(node) && !node.lost && above(),
            }
    }
}

/// Where a lost page begins, if that is within a meter's provisional issues.
pub fn lost_provisional(player: &Player, rng: &Rng) -> Option<u64> {
    let lost = player.tree.as_ref()?.lost();
    let lows = lost.map(|node| node.place.low);
    let lows: Vec<u64> = lows.filter(|low| parts(*low).2 > LAST_FINAL).collect();
    (!lows.is_empty()).then(|| rng.one_of(&lows))
}

/// A key in the range of such a leaf, beside one of its entries: a free one if it can be.
pub fn near(player: &Player, wanted: Wanted, rng: &Rng) -> Option<u64> {
    let tree = player.tree.as_ref()?;
    let leaves: Vec<&Node> = tree
        .nodes
        .iter()
        .filter(|node| wanted.is(tree, node))
        .collect();
    if leaves.is_empty() {
        return None;
    }
    let leaf = rng.one_of(&leaves);
    let at = rng.below(page::count(&leaf.shown));
    let beside = page::key_at(&leaf.shown, at);
    let steps = [1, 2, 3, 1 << 16, (1 << 16) + 1, 5 << 16];
    let keys = steps.into_iter().map(|step| beside.wrapping_add(step));
    keys.filter(|&key| whole(key) && leaf.place.holds(key))
        .find(|&key| player.states.now.get(key).is_none())
}
