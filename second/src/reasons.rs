//! Why a page is lost, found in another way than a walk finds it, for the checks of a report.

use crate::page::{self, Header, Page};
use crate::place::Place;
use crate::report::{Report, NO_REASON};

/// All four tests are made; the number of the first that fails, or 0.
pub fn first_failing(place: &Place, child: &Page, n: u16) -> u32 {
    let head = Header::of(child);
    let tests = [
        page::sound(child, n),
        place.kind.is_none() || place.kind == Some(head.kind),
        head.birth == place.birth,
        head.low == place.low && head.high == place.high,
    ];
    let first = tests.iter().position(|passed| !passed);
    first.map_or(NO_REASON, |at| at as u32 + 1)
}

/// A report of mends for these reasons, in walking order.
pub fn report(reasons: &[u32]) -> Report {
    Report {
        mended: reasons.len() as u32,
        reason: reasons.first().copied().unwrap_or(NO_REASON),
    }
}
