//! Insert: the walk, the refusals, and an entry put where there is room.

use crate::answer::{DAMAGED, DONE, FULL, PRESENT, SYNCFIRST};
use crate::broken::{broken, Rule};
use crate::key::{key, whole};
use crate::layout::{INNER_CAP, KIND_TOP, LEAF_CAP};
use crate::page::{self, Header, LeafEntry};
use crate::report::Mends;
use crate::session::Session;
use crate::split::split;
use crate::walk::{begin, descend};
use crate::way::Way;

/// What a call that may change the store hands back.
#[derive(Clone, Copy, PartialEq, Eq, Debug)]
pub struct Changed {
    pub answer: u32,
    pub mends: Mends,
    pub session: Session,
}

pub fn insert(
    working: &mut [u8],
    stable: &[u8],
    mut session: Session,
    model: u16,
    serial: u32,
    issue: u16,
    record: u32,
) -> Changed {
    let key = key(model, serial, issue);
    let mut mends = Mends::default();
    let mut answer = begin(working, stable, &session, whole(key));
    if answer == DONE {
        answer = match descend(working, &session, key, &mut mends) {
            Err(_) => DAMAGED,
            Ok(way) => put(working, &mut session, &way, LeafEntry { key, record }),
        };
    }
    let counts = match answer {
        DONE => !broken(Rule::InsertCounts),
        _ => broken(Rule::RefusalCountsNot),
    };
    if counts {
        session.one_more();
    }
    Changed {
        answer,
        mends: mends.beside(answer),
        session,
    }
}

/// Puts the entry into the leaf at the way's end. A refusal changes nothing.
fn put(working: &mut [u8], session: &mut Session, way: &Way, new: LeafEntry) -> u32 {
    let leaf = page::page_mut(working, way.last().place.child);
    if page::find(leaf, new.key).is_some() {
        return PRESENT;
    }
    if page::count(leaf) < LEAF_CAP {
        page::put_leaf(leaf, new);
        page::touch(leaf, session.c);
        return DONE;
    }
    let splits = match splits(working, session, way) {
        Ok(splits) => splits,
        Err(refusal) => return refusal,
    };
    split(working, session, way, splits, new);
    DONE
}

/// How many pages at the way's end must split, the full leaf among them; or 6 or 7. Six is
/// looked for at every level before seven is.
fn splits(working: &[u8], session: &Session, way: &Way) -> Result<usize, u32> {
    let mut splits = 1;
    while splits < way.len() {
        let parent = way.at(way.len() - 1 - splits).place.child;
        let head = Header::of(page::page(working, parent));
        if head.count < INNER_CAP {
            break;
        }
        if head.touched == session.c && !broken(Rule::SyncFirst) {
            return Err(SYNCFIRST);
        }
        splits += 1;
    }
    let root_splits = splits == way.len();
    let root = page::page(working, way.at(0).place.child);
    let needed = 2 * splits + usize::from(root_splits);
    if root_splits && page::kind(root) == KIND_TOP || session.usable_count(way) < needed {
        return Err(FULL);
    }
    Ok(splits)
}
