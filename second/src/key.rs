//! Certificate keys.

use std::ops::RangeInclusive;

/// The key of a certificate: model, serial, issue from the high bits down.
pub fn key(model: u16, serial: u32, issue: u16) -> u64 {
    u64::from(model) << 48 | u64::from(serial) << 16 | u64::from(issue)
}

/// Model, serial and issue of a key.
pub fn parts(key: u64) -> (u16, u32, u16) {
    ((key >> 48) as u16, (key >> 16) as u32, key as u16)
}

/// The keys of a meter's issues, from 1 to this one.
pub fn issues(model: u16, serial: u32, last: u16) -> RangeInclusive<u64> {
    key(model, serial, 1)..=key(model, serial, last)
}

/// Whether no part of the key is zero.
pub fn whole(key: u64) -> bool {
    let (model, serial, issue) = parts(key);
    (model != 0) & (serial != 0) & (issue != 0)
}
