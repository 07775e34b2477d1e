//! `sizes`: how many certificates fit a store of n pages, by rising and by random keys.
//!
//! A store is filled until an insert answers 7 right after a sync. Insert answers 6 and the
//! first answer 7 are met by a sync, as the manual says.

use second::key::key;
use second::rng::Rng;
use second::store::Store;

const SIZES: [usize; 8] = [4, 5, 8, 16, 32, 64, 96, 128];
const SEEDS: u64 = 20;

/// How many keys of this sequence a store of n pages takes, with the syncs that it asks for.
fn filled(n: usize, mut next: impl FnMut() -> u64) -> usize {
    let mut store = Store::fresh(n);
    let mut count = 0;
    loop {
        let key = next();
        let mut answer = store.insert(key, 1);
        if answer == 6 || answer == 7 {
            store.sync();
            answer = store.insert(key, 1);
        }
        match answer {
            0 => count += 1,
            5 => {}
            _ => return count,
        }
    }
}

fn rising(n: usize) -> usize {
    let mut serial = 0;
    filled(n, || {
        serial += 1;
        key(7, serial, 1)
    })
}

fn random(n: usize, seed: u64) -> usize {
    let rng = Rng::new(seed);
    filled(n, || {
        let serial = rng.from(1, u32::MAX as usize) as u32;
        key(rng.from(1, 9) as u16, serial, rng.from(1, 5) as u16)
    })
}

fn main() {
    println!(
        "{:>5} {:>8} {:>14} {:>13}",
        "pages", "rising", "random, least", "random, mean"
    );
    for n in SIZES {
        let counts: Vec<usize> = (1..=SEEDS).map(|seed| random(n, seed)).collect();
        let least = counts.iter().min().expect("there are seeds");
        let mean = counts.iter().sum::<usize>() / counts.len();
        println!("{n:>5} {:>8} {least:>14} {mean:>13}", rising(n));
    }
}
