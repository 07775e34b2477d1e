//! The exchange file of document 02 (K4), written: models, meters, certificates, each section after its count.

use crate::answer::{DAMAGED, DONE, SHORT};
use crate::broken::{broken, Rule};
use crate::key::parts;
use crate::page::LeafEntry;
use crate::report::Mends;
use crate::session::Session;
use crate::walk::{begin, Visit};
use std::collections::BTreeMap;

#[derive(Clone, Copy, PartialEq, Eq, Debug)]
pub struct Written {
    pub answer: u32,
    pub length: usize,
    pub mends: Mends,
    pub session: Session,
}

/// The file of certificates, in any order. Places are found in maps, not counted on the way.
pub fn file_of(entries: &[LeafEntry]) -> Vec<u8> {
    let first = u32::from(broken(Rule::PlacesFromZero));
    let mut models: BTreeMap<u16, u32> = BTreeMap::new();
    let mut meters: BTreeMap<(u16, u32), u32> = BTreeMap::new();
    let mut certificates = BTreeMap::new();
    for entry in entries {
        let (model, serial, issue) = parts(entry.key);
        models.insert(model, 0);
        meters.insert((model, serial), 0);
        certificates.insert((model, serial, issue), entry.record);
    }
    for (place, model) in models.values_mut().enumerate() {
        *model = place as u32;
    }
    for (place, meter) in meters.values_mut().enumerate() {
        *meter = place as u32 + first;
    }
    let mut file = Vec::new();
    file.extend((models.len() as u32).to_le_bytes());
    for model in models.keys() {
        file.extend(model.to_le_bytes());
    }
    file.extend((meters.len() as u32).to_le_bytes());
    for (model, serial) in meters.keys() {
        file.extend((models[model] as u16).to_le_bytes());
        file.extend(serial.to_le_bytes());
    }
    file.extend((certificates.len() as u32).to_le_bytes());
    for ((model, serial, issue), record) in &certificates {
        file.extend(meters[&(*model, *serial)].to_le_bytes());
        file.extend(issue.to_le_bytes());
        file.extend(record.to_le_bytes());
    }
    file
}

/// The file of a set of certificates, by key.
pub fn file_of_set(set: &BTreeMap<u64, u32>) -> Vec<u8> {
    let entry = |(&key, &record)| LeafEntry { key, record };
    file_of(&set.iter().map(entry).collect::<Vec<_>>())
}

/// Every page is entered and mended, even for an output that is too short; the file is made aside, and goes out whole or
/// not at all.
pub fn write_file(working: &mut [u8], stable: &[u8], session: Session, out: &mut [u8]) -> Written {
    let mut mends = Mends::default();
    let mut answer = begin(working, stable, &session, true);
    let mut length = 0;
    if answer == DONE {
        let mut shown = Vec::new();
        let walked = Visit {
            working,
            session: &session,
            asked: 0..=u64::MAX,
            room: usize::MAX,
            mends: &mut mends,
            seen: |entry| shown.push(entry),
        }
        .run();
        let file = file_of(&shown);
        answer = match walked {
            Err(_) => DAMAGED,
            Ok(()) if file.len() > out.len() => SHORT,
            Ok(()) => DONE,
        };
        if answer == DONE {
            length = file.len();
            out[..length].copy_from_slice(&file);
        }
    }
    Written {
        answer,
        length,
        mends: mends.beside(answer),
        session,
    }
}

/// The certificates that a file tells of, if each place it names is there and nothing is left over.
pub fn told_by(file: &[u8]) -> Option<Vec<LeafEntry>> {
    let mut rest = file;
    let mut take = |bytes: usize| -> Option<u64> {
        let (number, behind) = rest.split_at_checked(bytes)?;
        rest = behind;
        let digits = number.iter().rev();
        Some(digits.fold(0, |sum, digit| sum << 8 | u64::from(*digit)))
    };
    let models: Vec<u64> = (0..take(4)?).map(|_| take(2)).collect::<Option<_>>()?;
    let mut meters = Vec::new();
    for _ in 0..take(4)? {
        let model = models.get(take(2)? as usize)?;
        meters.push(model << 32 | take(4)?);
    }
    let mut entries = Vec::new();
    for _ in 0..take(4)? {
        let meter = meters.get(take(4)? as usize)?;
        let key = meter << 16 | take(2)?;
        let record = take(4)? as u32;
        entries.push(LeafEntry { key, record });
    }
    take(1).is_none().then_some(entries)
}
