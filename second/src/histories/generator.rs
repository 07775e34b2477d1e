//! Random moves, steered to where pages are full, lost or about to split.

use super::call::{numbers, set, Call, Mix};
use super::keys::{lost_provisional, near, Patterns, Wanted};
use super::mix::FEW;
use super::player::Player;
use super::Move;
use crate::answer::{DONE, FULL, SYNCFIRST};
use crate::key::parts;
use crate::layout::{INNER_CAP, LEAF_CAP, LEAF_HALF};
use crate::rng::Rng;

/// What a move may be, each with a weight that differs from history to history.
#[derive(Clone, Copy)]
enum Choice {
    Insert,
    Withdraw,
    Batch,
    Lookup,
    Newest,
    HasAny,
    List,
    Sync,
    Open,
    Crash,
    Mix,
    AllMixes,
    Misfit,
}

const CHOICES: &[Choice] = &[
    Choice::Insert,
    Choice::Withdraw,
    Choice::Batch,
    Choice::Lookup,
    Choice::Newest,
    Choice::HasAny,
    Choice::List,
    Choice::Sync,
    Choice::Open,
    Choice::Crash,
    Choice::Mix,
    Choice::AllMixes,
    Choice::Misfit,
];

/// Meters that goods-in registers at a time.
const DELIVERY: usize = 40;

pub struct Generator {
    pub n: usize,
    rng: Rng,
    patterns: Patterns,
    /// Keys still to be loaded, the next one last.
    load: Vec<u64>,
    /// Whether a sync was made for the key to be loaded.
    synced: bool,
    weights: [usize; CHOICES.len()],
    left: usize,
    /// Moves left of a quiet stretch.
    quiet: usize,
    /// The move, counted from the end, at which the counter jumps to its end.
    jump: Option<usize>,
}

impl Generator {
    pub fn new(seed: u64) -> Generator {
        let rng = Rng::new(seed);
        let (n, load) = size(&rng);
        let mut patterns = Patterns::new(&rng);
        let load = patterns.load(load, &rng);
        let mut weights = [0; CHOICES.len()];
        let most = rng.one_of(&[1, 4, 10]);
        for weight in &mut weights {
            *weight = rng.from(0, most);
        }
        weights[Choice::Insert as usize] = rng.from(5, 30);
        weights[Choice::Batch as usize] = rng.below(3);
        weights[Choice::Crash as usize] += rng.from(0, 4);
        weights[Choice::Mix as usize] += rng.from(0, 4);
        weights[Choice::Open as usize] = rng.below(2);
        let left = rng.from(10, 80);
        let jump = rng.once_in(12).then(|| rng.below(left));
        Generator {
            n,
            rng,
            patterns,
            load,
            synced: false,
            weights,
            left,
            quiet: 0,
            jump,
        }
    }

    /// The next move; none at the history's end.
    pub fn next(&mut self, player: &Player) -> Option<Move> {
        if let Some(call) = self.loading(player) {
            return Some(Move { call, loads: true });
        }
        self.left = self.left.checked_sub(1)?;
        let call = if self.jump == Some(self.left) {
            let left = self.rng.below(4) as u32;
            Call::SyncsUntil { left }
        } else {
            self.stretch(player).unwrap_or_else(|| self.call(player))
        };
        if matches!(call, Call::Open | Call::Crash(_)) && self.rng.once_in(4) {
            self.quiet = self.rng.from(5, 10);
        }
        Some(Move { call, loads: false })
    }

    /// Inserts what is to be loaded, with a sync where one is asked for. If that doesn't help
    /// the store is as full as it gets.
    fn loading(&mut self, player: &Player) -> Option<Call> {
        let key = *self.load.last()?;
        if player.states.now.get(key).is_some() {
            self.load.pop();
            self.synced = false;
            if self.load.is_empty() {
                return self.rng.once_in(4).then_some(Call::Sync);
            }
            return self.loading(player);
        }
        let refused = [SYNCFIRST, FULL].contains(&player.answer);
        if refused && self.synced {
            self.load.clear();
            return None;
        }
        if refused {
            self.synced = true;
            return Some(Call::Sync);
        }
        let record = self.rng.next() as u32;
        Some(Call::Insert { key, record })
    }

    fn choose(&mut self, player: &Player) -> Choice {
        let mut at = self.rng.below(self.weights.iter().sum());
        let mut choice = Choice::Insert;
        for (next, &weight) in CHOICES.iter().zip(&self.weights) {
            choice = *next;
            if at < weight {
                break;
            }
            at -= weight;
        }
        // A crash says little while stable and working are alike.
        let crash = matches!(choice, Choice::Crash | Choice::Mix | Choice::AllMixes);
        if crash && player.differing().count_ones() < 2 && !self.rng.once_in(4) {
            choice = Choice::Insert;
        }
        // A lost page is worth splits beside it and another crash before a list mends it.
        let lost = player.tree.as_ref().map_or(0, |tree| tree.lost().count());
        match choice {
            Choice::List if lost > 0 => {
                self.rng
                    .one_of(&[Choice::Insert, Choice::Mix, choice, choice])
            }
            _ => choice,
        }
    }

    fn call(&mut self, player: &Player) -> Call {
        let refused = [SYNCFIRST, FULL].contains(&player.answer);
        if refused && self.rng.once_in(3) {
            return Call::Sync;
        }
        let choice = self.choose(player);
        self.made(choice, player)
    }

    fn made(&mut self, choice: Choice, player: &Player) -> Call {
        match choice {
            Choice::Insert => Call::Insert {
                key: self.new_key(player),
                record: self.rng.one_of(&[0, u32::MAX, self.rng.next() as u32]),
            },
            Choice::Withdraw => Call::Withdraw {
                key: self.old_key(player),
            },
            Choice::Batch => self.batch(player),
            Choice::Lookup => Call::Lookup {
                key: self.any_key(player),
            },
            Choice::Newest => {
                let (model, serial) = self.any_meter(player);
                Call::Newest { model, serial }
            }
            Choice::HasAny => {
                let (model, serial) = self.any_meter(player);
                Call::HasAny { model, serial }
            }
            Choice::List => self.list(player),
            Choice::Sync => Call::Sync,
            Choice::Open => Call::Open,
            Choice::Crash => Call::Crash(self.mix(player)),
            Choice::Mix => Call::Mix(self.mix(player)),
            Choice::AllMixes => Call::AllMixes {
                inside_sync: self.rng.once_in(4),
            },
            Choice::Misfit => Call::Misfit {
                pages: self.rng.one_of(&[3, self.n, self.n + 1, 129]),
            },
        }
    }

    /// The next move of a quiet stretch, which ends with every crash if few pages differ, else with random ones.
    fn stretch(&mut self, player: &Player) -> Option<Call> {
        self.quiet = self.quiet.checked_sub(1)?;
        let many = player.differing().count_ones() as usize > FEW;
        let mix = Mix {
            inside_sync: false,
            ..self.mix(player)
        };
        Some(match self.quiet {
            0 => Call::Crash(mix),
            1..=3 if many => Call::Mix(mix),
            1 => Call::AllMixes { inside_sync: false },
            _ => self.quiet_call(player),
        })
    }

    /// A call that changes no certificate: in the place of an insert or a withdrawal that would, a lookup. Often a list of
    /// all, which mends every lost page of the tree.
    fn quiet_call(&mut self, player: &Player) -> Call {
        if self.rng.once_in(4) {
            let room = player.states.now.len() + 1;
            return Call::List {
                start: 0,
                keys: room,
                records: room,
            };
        }
        let choice = self.rng.one_of(&[
            Choice::Insert,
            Choice::Withdraw,
            Choice::Lookup,
            Choice::Newest,
            Choice::HasAny,
            Choice::List,
        ]);
        let call = self.made(choice, player);
        let mut copy = player.store.clone();
        match call {
            Call::Insert { key, record } if copy.insert(key, record) == DONE => {
                Call::Lookup { key }
            }
            Call::Withdraw { key } if copy.withdraw(key) == DONE => Call::Lookup { key },
            call => call,
        }
    }

    /// A key to insert: by the history's pattern, or beside an entry of a leaf worth splitting.
    fn new_key(&mut self, player: &Player) -> u64 {
        let wanted = match self.rng.below(24) {
            0 => return 0,
            1 => return self.any_key(player),
            2 => return self.touched_key(player),
            3..=7 => None,
            8..=9 => Some(Wanted::Any),
            10..=12 => Some(Wanted::Lost),
            13..=18 => Some(Wanted::Full),
            _ => Some(Wanted::BelowFull),
        };
        let key = wanted.and_then(|wanted| near(player, wanted, &self.rng));
        key.unwrap_or_else(|| self.patterns.key(&self.rng))
    }

    /// A key to withdraw: often one inserted since the last sync or opening.
    fn old_key(&mut self, player: &Player) -> u64 {
        if self.rng.once_in(2) {
            self.any_key(player)
        } else {
            self.touched_key(player)
        }
    }

    /// A key inserted or withdrawn since the last sync or opening, if there is one.
    fn touched_key(&mut self, player: &Player) -> u64 {
        let touched: Vec<u64> = player.states.touched().collect();
        if touched.is_empty() {
            return self.any_key(player);
        }
        self.rng.one_of(&touched)
    }

    /// A delivery: none, one, a few or many, here and there one twice.
    fn batch(&mut self, player: &Player) -> Call {
        let length = self.rng.one_of(&[0, 1, self.rng.from(2, 6), DELIVERY]);
        let mut items: Vec<(u64, u32)> = Vec::new();
        for _ in 0..length {
            let key = match items.last() {
                Some(&(key, _)) if self.rng.once_in(12) => key,
                _ => self.new_key(player),
            };
            items.push((key, self.rng.next() as u32));
        }
        Call::Batch { items }
    }

    /// A key to look up: often one that is there.
    fn any_key(&mut self, player: &Player) -> u64 {
        let present = player.states.now.len();
        match self.rng.below(8) {
            0 => self.rng.one_of(&[0, 1, 1 << 16, 1 << 48, u64::MAX]),
            1 => self.patterns.key(&self.rng),
            2 => near(player, Wanted::Lost, &self.rng).unwrap_or(1),
            _ if present == 0 => self.patterns.key(&self.rng),
            _ => {
                let at = self.rng.below(present);
                player
                    .states
                    .now
                    .keys()
                    .nth(at)
                    .expect("as many as counted")
            }
        }
    }

    /// A meter: often one whose certificates lie in a lost page.
    fn any_meter(&mut self, player: &Player) -> (u16, u32) {
        let lost = match self.rng.below(4) {
            0 => near(player, Wanted::Lost, &self.rng),
            1 => None,
            _ => lost_provisional(player, &self.rng),
        };
        let (model, serial, _) = parts(lost.unwrap_or_else(|| self.any_key(player)));
        (model, serial)
    }

    fn list(&mut self, player: &Player) -> Call {
        let most = player.states.now.len() + 2;
        let start = match self.rng.below(4) {
            0 => 0,
            1 => self.rng.next(),
            _ => self.any_key(player),
        };
        let room = match self.rng.below(4) {
            0 => 0,
            1 => most,
            2 => self.rng.from(0, 3),
            _ => self.rng.below(most),
        };
        let more = self.rng.one_of(&[0, 0, 1, 50]);
        let (keys, records) = if self.rng.once_in(2) {
            (room, room + more)
        } else {
            (room + more, room)
        };
        Call::List {
            start,
            keys,
            records,
        }
    }

    /// What a crash writes: pages that differ decide, others change nothing.
    fn mix(&mut self, player: &Player) -> Mix {
        let differ = player.differing();
        let pages: Vec<usize> = numbers(differ | 1).collect();
        let one = 1 << self.rng.one_of(&pages);
        let density = self.rng.one_of(&[1, 2, 4, 6, 7]);
        let some = set(pages.into_iter().filter(|_| self.rng.below(8) < density));
        let pages = match self.rng.below(12) {
            0 => 0,
            1 => u128::MAX >> (128 - self.n),
            2 => one,
            3 => differ & !one,
            4 => 1,
            5 => differ & !1,
            _ => some,
        };
        Mix {
            pages,
            inside_sync: self.rng.once_in(4),
        }
    }
}

/// Pages of the tables and entries to start with: small stores often, and some that are about
/// to grow a level.
fn size(rng: &Rng) -> (usize, usize) {
    let level = (INNER_CAP + 1) * LEAF_HALF;
    let wide = INNER_CAP >= 30;
    match rng.below(16) {
        0..=6 => (rng.from(4, 9), rng.from(0, 2 * LEAF_CAP)),
        7..=10 => {
            let n = rng.from(10, 40);
            (n, rng.from(0, n * LEAF_HALF))
        }
        11..=13 => {
            let n = rng.from(if wide { 44 } else { 12 }, if wide { 70 } else { 30 });
            (n, level - rng.from(0, LEAF_CAP).min(level))
        }
        _ => {
            let n = rng.from(if wide { 60 } else { 20 }, 128);
            (n, rng.from(level, 3 * level / 2 + LEAF_CAP))
        }
    }
}
