//! Every number of document 01 and of the requests of document 02, named once.

/// Bytes of a page.
pub const PAGE: usize = 512;
/// A table has at least this many pages.
pub const PAGES_LEAST: usize = 4;
/// A table has at most this many pages.
pub const PAGES_MOST: usize = 128;

/// Page 0: where its fields lie.
pub mod zero {
    pub const KIND: usize = 0;
    pub const N: usize = 2;
    pub const NUMBER: usize = 4;
    pub const ROOT: usize = 8;
    pub const PREVIOUS: usize = 10;
    pub const BIRTH: usize = 12;
    pub const END: usize = 16;
}

/// Header of any other page: where the fields lie that both kinds have.
pub mod header {
    pub const KIND: usize = 0;
    pub const COUNT: usize = 2;
    pub const BIRTH: usize = 4;
    pub const BUILT: usize = 8;
    pub const TOUCHED: usize = 12;
    pub const LOW: usize = 16;
    pub const HIGH: usize = 24;
}

/// Entries: where their fields lie. The key comes first in both kinds.
pub mod entry {
    pub const KEY: usize = 0;
    pub const RECORD: usize = 8;
    pub const CHILD: usize = 8;
    pub const PREVIOUS: usize = 10;
    pub const BIRTH: usize = 12;
}

/// Bytes of a leaf's header: its entries lie behind it.
pub const LEAF_HEADER: usize = 32;
/// Bytes of an inner page's header.
pub const INNER_HEADER: usize = 32;
pub const LEAF_ENTRY: usize = 12;
pub const INNER_ENTRY: usize = 16;

/// Kind of page 0.
pub const KIND_ZERO: u16 = 9;
/// Kind of a leaf.
pub const KIND_LEAF: u16 = 1;
/// Kind of the highest page there can be.
pub const KIND_TOP: u16 = 3;
/// Pages on a way from the root to a leaf, at most.
pub const LEVELS: usize = KIND_TOP as usize;

/// Entries of a leaf, at most. Smaller under a feature, so that trees grow deep quickly.
pub const LEAF_CAP: usize = if cfg!(feature = "caps2") {
    2
} else if cfg!(feature = "caps4") {
    4
} else {
    40
};
/// Entries of an inner page, at most.
pub const INNER_CAP: usize = if cfg!(feature = "caps2") {
    2
} else if cfg!(feature = "caps4") {
    4
} else {
    30
};
/// Old entries that go to the lower half of a split leaf. All others go to the upper half.
pub const LEAF_HALF: usize = LEAF_CAP / 2;
/// Old entries that go to the lower half of a split inner page.
pub const INNER_HALF: usize = INNER_CAP / 2;

/// The number that format leaves.
pub const FIRST_NUMBER: u32 = 2;
/// The birth of the first root.
pub const FIRST_BIRTH: u32 = 1;
/// The first root's page.
pub const FIRST_ROOT: u16 = 1;
/// The last number that opens, and the last counter that syncs.
pub const LAST_NUMBER: u32 = 4_294_967_293;

/// The last issue that newest asks for: those above are provisional.
pub const LAST_FINAL: u16 = 32_767;

/// Pages of the bench program's tables.
pub const BENCH_PAGES: usize = 5;
