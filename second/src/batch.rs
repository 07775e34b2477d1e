//! A delivery in one call: single inserts in list order.

use crate::answer::{DONE, LENGTH, SYNCFIRST};
use crate::broken::{broken, Rule};
use crate::insert::{insert, Changed};
use crate::key::parts;
use crate::report::Mends;
use crate::session::Session;
use crate::walk::session_pages;

/// One certificate of a delivery, and the place for its answer. Laid out as C lays it out.
#[derive(Clone, Copy, PartialEq, Eq, Debug)]
#[repr(C)]
pub struct Item {
    pub model: u16,
    pub serial: u32,
    pub issue: u16,
    pub record: u32,
    pub answer: u32,
}

/// In the answer's place until there is one: no answer has this number.
pub const UNANSWERED: u32 = u32::MAX;

impl Item {
    pub fn new(key: u64, record: u32) -> Item {
        let (model, serial, issue) = parts(key);
        Item {
            model,
            serial,
            issue,
            record,
            answer: UNANSWERED,
        }
    }
}

/// Only lengths are tested for the call as a whole: page 0 and the rest are the items' affair.
pub fn batch(
    working: &mut [u8],
    stable: &[u8],
    mut session: Session,
    items: &mut [Item],
) -> Changed {
    let mut mends = Mends::default();
    if session_pages(working, stable, &session).is_none() {
        return Changed {
            answer: LENGTH,
            mends,
            session,
        };
    }
    for item in items {
        let Item {
            model,
            serial,
            issue,
            record,
            ..
        } = *item;
        let one = insert(working, stable, session, model, serial, issue, record);
        item.answer = one.answer;
        session = one.session;
        mends.join(one.mends);
        if one.answer == SYNCFIRST && broken(Rule::BatchGoesOn) {
            break;
        }
    }
    Changed {
        answer: DONE,
        mends,
        session,
    }
}
