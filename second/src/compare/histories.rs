//! Random histories of calls and crashes, played on both.

use super::{Alike, Both, Counters};
use crate::answer::{DONE, SPENT};
use crate::field::put32;
use crate::file::file_of_set;
use crate::histories::{Call, Generator, Mix, Player, Set, States, Watch};
use crate::key::{parts, whole};
use crate::layout::{zero, LAST_NUMBER, PAGE, PAGES_MOST};
use crate::tree::Tree;

/// With no more differing pages than this, every mix is tried.
const FEW: u32 = 5;

/// One history. What goes wrong is told with all that was done before.
pub fn history(seed: u64, counters: &mut Counters) -> Alike<()> {
    let mut generator = Generator::new(seed);
    let mut done = Vec::new();
    let played = play(&mut generator, &mut done, counters);
    counters.histories += 1;
    played.map_err(|what| {
        let calls: String = done.iter().map(|call| format!("  {call}\n")).collect();
        format!(
            "history of seed {seed} with {} pages:\n{calls}differs: {what}",
            generator.n
        )
    })
}

fn play(generator: &mut Generator, done: &mut Vec<Call>, counters: &mut Counters) -> Alike<()> {
    let mut both = Both::fresh(generator.n, counters)?;
    let mut player = Player::new(generator.n, Watch::Demand);
    while let Some(next) = generator.next(&player) {
        done.push(next.call.clone());
        step(&mut both, &mut player, &next.call, counters)?;
        if player.over {
            return Ok(());
        }
        follow(&both, &mut player, next.loads);
    }
    Ok(())
}

/// The generator looks at the player: it shows the store that was reached.
fn follow(both: &Both, player: &mut Player, loads: bool) {
    player.store.working.copy_from_slice(&both.own.working);
    player.store.stable.copy_from_slice(&both.own.stable);
    player.store.session = both.own.session;
    player.tree = if loads {
        None
    } else {
        Tree::good(&both.own.working, both.own.session.n)
    };
}

fn step(both: &mut Both, player: &mut Player, call: &Call, counters: &mut Counters) -> Alike<()> {
    match *call {
        Call::Insert { key, record } => {
            player.answer = both.insert(key, record, counters)?;
            if player.answer == DONE {
                player.states.put(key, record);
            }
            let (model, serial, _) = parts(key);
            both.lookup(key, counters)?;
            both.lookup(key ^ 1, counters)?;
            both.newest(model, serial, counters)?;
            both.has_any(model, serial, counters)?;
        }
        Call::Withdraw { key } => {
            if both.withdraw(key, counters)? == DONE {
                player.states.take(key);
            }
            both.lookup(key, counters)?;
        }
        Call::Batch { ref items } => {
            let set = items.iter().copied().filter(|&(key, _)| whole(key));
            let mut copy = both.clone();
            copy.read_file(&file_of_set(&set.collect()), counters)?;
            for (item, &(key, record)) in both.batch(items, counters)?.iter().zip(items) {
                player.answer = item.answer;
                if item.answer == DONE {
                    player.states.now.add(key, record);
                }
            }
        }
        Call::Lookup { key } => _ = both.lookup(key, counters)?,
        Call::Newest { model, serial } => _ = both.newest(model, serial, counters)?,
        Call::HasAny { model, serial } => _ = both.has_any(model, serial, counters)?,
        Call::List {
            start,
            keys,
            records,
        } => {
            both.write_files(counters)?;
            both.list(start, keys, records, counters)?;
        }
        Call::Sync => {
            player.answer = DONE;
            if both.sync(counters)? == DONE {
                player.states.settle();
            }
        }
        Call::SyncsUntil { left } => {
            both.sync(counters)?;
            jump(both, LAST_NUMBER - left);
        }
        Call::Open => crash(both, player, Mix::NONE, counters)?,
        Call::Crash(mix) => crash(both, player, mix, counters)?,
        Call::Mix(mix) => look_around(both.clone(), player, mix, counters)?,
        Call::AllMixes { inside_sync } => all_mixes(both, player, inside_sync, counters)?,
        Call::Misfit { pages } => misfit(both.clone(), pages, counters)?,
    }
    Ok(())
}

/// Syncs of an unchanged store only raise counter and number: many are made at one stroke.
fn jump(both: &mut Both, c: u32) {
    for store in [&mut both.own, &mut both.proved.0] {
        if store.session.c < c {
            store.session.c = c;
            put32(&mut store.working, zero::NUMBER, c + 1);
            put32(&mut store.stable, zero::NUMBER, c + 1);
        }
    }
}

fn written(mix: Mix) -> [bool; PAGES_MOST] {
    std::array::from_fn(|page| mix.pages >> page & 1 == 1)
}

/// A crash: the history goes on in what was opened.
fn crash(both: &mut Both, player: &mut Player, mix: Mix, counters: &mut Counters) -> Alike<()> {
    let answer = both.crash(&written(mix), mix.inside_sync, counters)?;
    let tree = Tree::good(&both.own.stable, both.own.session.n);
    player.over = answer == SPENT || tree.is_none();
    player.states = States::of(Set::of(tree.iter().flat_map(Tree::entries)));
    Ok(())
}

/// A crash on copies, and a few calls that mend what they meet.
fn look_around(mut both: Both, player: &Player, mix: Mix, counters: &mut Counters) -> Alike<()> {
    if both.crash(&written(mix), mix.inside_sync, counters)? != DONE {
        return Ok(());
    }
    let step = player.states.now.len() / 8 + 1;
    for key in player.states.now.keys().step_by(step) {
        both.lookup(key ^ 1, counters)?;
        both.insert(key + 1, key as u32, counters)?;
        both.withdraw(key ^ 2, counters)?;
        both.withdraw(key, counters)?;
    }
    both.write_files(counters)?;
    both.list(
        0,
        player.states.now.len() + 20,
        player.states.now.len() + 9,
        counters,
    )?;
    Ok(())
}

fn all_mixes(
    both: &Both,
    player: &Player,
    inside_sync: bool,
    counters: &mut Counters,
) -> Alike<()> {
    let differ = player.differing();
    if differ.count_ones() > FEW {
        return Ok(());
    }
    let mut pages = differ;
    loop {
        let mut copy = both.clone();
        copy.crash(&written(Mix { pages, inside_sync }), inside_sync, counters)?;
        if pages == 0 {
            return Ok(());
        }
        pages = (pages - 1) & differ;
    }
}

/// Every call on tables of different lengths, or with a session of another one.
fn misfit(mut both: Both, pages: usize, counters: &mut Counters) -> Alike<()> {
    for store in [&mut both.own, &mut both.proved.0] {
        if pages * PAGE == store.working.len() {
            store.session.n += 1;
        } else {
            store.stable.resize(pages * PAGE, 0);
        }
    }
    both.insert(1, 1, counters)?;
    both.withdraw(1, counters)?;
    both.batch(&[(1, 1)], counters)?;
    both.read_file(&[0; 12], counters)?;
    both.read_file(&[0; 11], counters)?;
    both.lookup(1, counters)?;
    both.newest(0, 1, counters)?;
    both.has_any(0, 1, counters)?;
    both.list(0, 1, 1, counters)?;
    both.write_file(1, counters)?;
    both.sync(counters)?;
    both.open(counters)?;
    both.format(counters)?;
    Ok(())
}
