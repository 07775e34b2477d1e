//! What a withdrawal should leave, put together in another way, for the checks.

use crate::field::{get16, get64, put16, put32};
use crate::layout::{entry, header, LEAF_ENTRY, LEAF_HEADER, PAGE};

/// Whether one page alone differs, and is a leaf that has lost this key's entry under counter c.
pub fn taken_out(before: &[u8], after: &[u8], key: u64, c: u32) -> bool {
    let pages = before.chunks_exact(PAGE).zip(after.chunks_exact(PAGE));
    let mut others = pages.filter(|(before, after)| before != after);
    match (others.next(), others.next()) {
        (Some((before, after)), None) => without(before, key, c).as_deref() == Some(after),
        _ => false,
    }
}

/// The leaf's bytes: twelve zeros come behind the last entry, and the twelve bytes of this one go.
fn without(leaf: &[u8], key: u64, c: u32) -> Option<Vec<u8>> {
    let count = get16(leaf, header::COUNT);
    let end = LEAF_HEADER + usize::from(count) * LEAF_ENTRY;
    let mut entries = (LEAF_HEADER..end).step_by(LEAF_ENTRY);
    let at = entries.find(|at| get64(leaf, at + entry::KEY) == key)?;
    let mut bytes = leaf.to_vec();
    bytes.splice(end..end, [0; LEAF_ENTRY]);
    bytes.drain(at..at + LEAF_ENTRY);
    put16(&mut bytes, header::COUNT, count - 1);
    put32(&mut bytes, header::TOUCHED, c);
    Some(bytes)
}
