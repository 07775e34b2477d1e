//! Files of arbitrary bytes: good ones, and good ones spoilt in one place or in two.

use crate::field::put32;
use crate::file::file_of_set;
use crate::rng::Rng;
use std::collections::BTreeMap;

/// Where the counts of a good file begin, and its end.
fn starts(file: &[u8]) -> [usize; 4] {
    let count = |at: usize| crate::field::get32(file, at) as usize;
    let meters = 4 + 2 * count(0);
    let certificates = meters + 4 + 6 * count(meters);
    [0, meters, certificates, file.len()]
}

/// A file of these certificates, mostly spoilt.
pub fn spoilt(set: &BTreeMap<u64, u32>, rng: &Rng) -> Vec<u8> {
    let mut file = file_of_set(set);
    if rng.once_in(3) {
        return file;
    }
    let starts = starts(&file);
    spoil(&mut file, &starts, rng);
    if rng.once_in(4) {
        spoil(&mut file, &starts, rng);
    }
    file
}

fn spoil(file: &mut Vec<u8>, starts: &[usize; 4], rng: &Rng) {
    let at = rng.below(file.len() + 1);
    match rng.below(8) {
        0 => file.truncate(at),
        1 => file.extend([rng.next() as u8, 0, 0].iter().take(1 + at % 3)),
        2..=3 if at < file.len() => file[at] = rng.next() as u8,
        4 if at < file.len() => file[at] ^= 1 << rng.below(8),
        5 => recount(file, rng.one_of(&starts[..3]), rng),
        6 => double(file, starts, rng),
        _ => {
            let end = (at + rng.one_of(&[1, 2, 6, 10])).min(file.len());
            file.drain(at.min(file.len())..end);
        }
    }
}

/// Another number in a count's place.
fn recount(file: &mut [u8], at: usize, rng: &Rng) {
    if at + 4 <= file.len() {
        let count = crate::field::get32(file, at);
        let other = [count.wrapping_add(1), count.wrapping_sub(1), 0, u32::MAX];
        put32(file, at, rng.one_of(&other));
    }
}

/// An item once more behind itself, its number one higher or not.
fn double(file: &mut Vec<u8>, starts: &[usize; 4], rng: &Rng) {
    let section = rng.below(3);
    let width = [2, 6, 10][section];
    let (first, end) = (starts[section] + 4, starts[section + 1]);
    if end > file.len() || end <= first {
        return;
    }
    let item = first + width * rng.below((end - first) / width);
    let mut again = file[item..item + width].to_vec();
    let number = [0, 2, 4][section];
    again[number] = again[number].wrapping_add(rng.below(2) as u8);
    file.splice(item + width..item + width, again);
    recount_up(file, starts[section]);
}

fn recount_up(file: &mut [u8], at: usize) {
    let count = crate::field::get32(file, at);
    put32(file, at, count.wrapping_add(1));
}
