//! Rules that a run may break, one at a time, to see that the checks notice.

/// A rule of document 01 on which demand 3 rests, or one of document 02.
#[derive(Clone, Copy, PartialEq, Eq, Debug)]
pub enum Rule {
    /// A child fits only with the birth that its parent names.
    BirthsCompared,
    /// Opening raises the number in stable page 0.
    OpenRaises,
    /// Previous pages of lost entries aren't free after an opening.
    LostPreviousKept,
    /// A full parent that was touched since the last sync answers 6.
    SyncFirst,
    /// The halves of a leaf built since the last sync inherit its previous page.
    LeafInherits,
    /// Page 0's previous stays if the old root was built since the last sync.
    RootPreviousStays,
    /// A parent that takes a pair where it stands is touched.
    ParentTouched,
    /// A full inner page is divided at its middle entry.
    InnerDivided,
    /// A split inner page waits.
    InnerWaits,
    /// A split leaf waits, unless it was born since the last sync.
    LeafWaits,
    /// A mended leaf waits when it is split, though it was built since the last sync.
    MendedLeafWaits,
    /// Sync writes the counter plus 2.
    SyncNumber,
    /// Mending sets built.
    MendBuilt,
    /// Mending sets touched.
    MendTouched,

    /// Newest ends with issue 32,767.
    FinalIssues,
    /// Soundness is tested before birth, and the first test that fails is the reason.
    ReasonOrder,
    /// A refused call tells of its mends.
    RefusedReports,
    /// A done insert adds one to the total.
    InsertCounts,
    /// A refused insert leaves it.
    RefusalCountsNot,
    /// A withdrawal takes one off the total.
    WithdrawCounts,
    /// A withdrawal touches its leaf.
    WithdrawTouches,
    /// A withdrawal leaves zeros where the last entry was.
    LastPlaceZeroed,
    /// A leaf without entries stays in the tree.
    EmptyLeafStays,
    /// A call that only reads leaves a page that fits as it is.
    FittingLeft,
    /// Places in the exchange file are counted from 0.
    PlacesFromZero,
    /// An item after one that answered 6 is still tried.
    BatchGoesOn,
    /// Of a file's certificates those count as done that answered 0.
    FileCountsDone,
}

/// Those on which demand 3 rests.
pub const RULES: [Rule; 14] = [
    Rule::BirthsCompared,
    Rule::OpenRaises,
    Rule::LostPreviousKept,
    Rule::SyncFirst,
    Rule::LeafInherits,
    Rule::RootPreviousStays,
    Rule::ParentTouched,
    Rule::InnerDivided,
    Rule::InnerWaits,
    Rule::LeafWaits,
    Rule::MendedLeafWaits,
    Rule::SyncNumber,
    Rule::MendBuilt,
    Rule::MendTouched,
];

/// Those that came with document 02.
pub const LATER: &[Rule] = &[
    Rule::FinalIssues,
    Rule::ReasonOrder,
    Rule::RefusedReports,
    Rule::InsertCounts,
    Rule::RefusalCountsNot,
    Rule::WithdrawCounts,
    Rule::WithdrawTouches,
    Rule::LastPlaceZeroed,
    Rule::EmptyLeafStays,
    Rule::FittingLeft,
    Rule::PlacesFromZero,
    Rule::BatchGoesOn,
    Rule::FileCountsDone,
];

/// Whether this run breaks the rule.
#[cfg(not(feature = "broken"))]
#[inline(always)]
pub const fn broken(_: Rule) -> bool {
    false
}

#[cfg(feature = "broken")]
thread_local! {
    static BROKEN: std::cell::Cell<Option<Rule>> = const { std::cell::Cell::new(None) };
}

/// Whether this thread breaks the rule.
#[cfg(feature = "broken")]
pub fn broken(rule: Rule) -> bool {
    BROKEN.get() == Some(rule)
}

/// From now on this thread breaks the rule, or none.
#[cfg(feature = "broken")]
pub fn break_rule(rule: Option<Rule>) {
    BROKEN.set(rule);
}
