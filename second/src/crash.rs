//! Crash: some working pages have reached the stable table, the rest is forgotten.

use crate::layout::PAGE;

/// Writes the marked working pages to the stable table.
pub fn crash(working: &[u8], stable: &mut [u8], pages: &[bool]) {
    let both = working
        .chunks_exact(PAGE)
        .zip(stable.chunks_exact_mut(PAGE));
    for ((from, to), _) in both.zip(pages).filter(|(_, &written)| written) {
        to.copy_from_slice(from);
    }
}
