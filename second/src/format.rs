//! Format: an empty store in the stable table.

use crate::answer::{DONE, LENGTH};
use crate::field::{put16, put32};
use crate::layout::{zero, FIRST_BIRTH, FIRST_NUMBER, FIRST_ROOT, KIND_LEAF, KIND_ZERO};
use crate::page::{page_mut, Header};
use crate::walk::pages;

pub fn format(working: &[u8], stable: &mut [u8]) -> u32 {
    let Some(n) = pages(working, stable) else {
        return LENGTH;
    };
    stable.fill(0);
    put16(stable, zero::KIND, KIND_ZERO);
    put16(stable, zero::N, n);
    put32(stable, zero::NUMBER, FIRST_NUMBER);
    put16(stable, zero::ROOT, FIRST_ROOT);
    put16(stable, zero::PREVIOUS, 0);
    put32(stable, zero::BIRTH, FIRST_BIRTH);
    let empty = Header {
        kind: KIND_LEAF,
        count: 0,
        birth: FIRST_BIRTH,
        built: FIRST_BIRTH,
        touched: FIRST_BIRTH,
        low: 0,
        high: u64::MAX,
    };
    *page_mut(stable, FIRST_ROOT) = empty.page();
    DONE
}
