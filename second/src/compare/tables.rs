//! Calls on tables of arbitrary bytes, with any length and any session.

use super::{Alike, Both, Counters};
use crate::answer::DONE;
use crate::bytes::files::spoilt;
use crate::bytes::tables::arbitrary;
use crate::bytes::{some_key, some_meter};
use crate::key::whole;
use crate::rng::Rng;

/// Some calls, one after another, on the table of this seed.
pub fn table(seed: u64, counters: &mut Counters) -> Alike<()> {
    let rng = Rng::new(seed);
    let mut both = Both::of(arbitrary(&rng));
    counters.tables += 1;
    for _ in 0..rng.from(4, 16) {
        call(&mut both, &rng, counters)
            .map_err(|what| format!("table of seed {seed} differs: {what}"))?;
    }
    Ok(())
}

fn call(both: &mut Both, rng: &Rng, counters: &mut Counters) -> Alike<u32> {
    let key = some_key(&both.own, rng);
    match rng.below(41) {
        0 => both.clone().format(counters),
        1..=2 => {
            let session = both.own.session;
            let answer = both.open(counters)?;
            // After a refusal the calls go on with the session there was.
            if both.own.session.n == 0 {
                both.own.session = session;
                both.proved.0.session = session;
            }
            Ok(answer)
        }
        3 => both.sync(counters),
        4..=7 => both.lookup(key, counters),
        8..=11 => {
            let (model, serial) = some_meter(&both.own, rng);
            both.newest(model, serial, counters)
        }
        12..=16 => {
            let room = rng.one_of(&[0, 1, 10, 60, 2000]);
            let start = rng.one_of(&[0, 0, key, rng.next()]);
            both.list(start, room, room + rng.below(2), counters)
        }
        17..=20 => {
            let (model, serial) = some_meter(&both.own, rng);
            both.has_any(model, serial, counters)
        }
        21..=24 => both.withdraw(key, counters),
        25..=28 => {
            both.write_files(counters)?;
            let room = rng.one_of(&[0, 11, 12, 30, rng.below(4000), 100_000]);
            both.write_file(room, counters)
        }
        29..=30 => {
            let length = if rng.once_in(50) {
                2000
            } else {
                rng.one_of(&[0, 1, 4, 40])
            };
            let keys = (0..length).map(|_| some_key(&both.own, rng));
            let items: Vec<(u64, u32)> = keys.map(|key| (key, !key as u32)).collect();
            both.batch(&items, counters).map(|_| DONE)
        }
        31..=34 => {
            let keys = (0..rng.one_of(&[0, 1, 3, 12, 60])).map(|_| some_key(&both.own, rng));
            let set = keys.filter(|&key| whole(key)).map(|key| (key, !key as u32));
            both.read_file(&spoilt(&set.collect(), rng), counters)
        }
        _ => both.insert(key, rng.next() as u32, counters),
    }
}
