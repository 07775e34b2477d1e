//! The same rules walked in another way, to be compared with the calls.

use crate::answer::{DAMAGED, DONE, SPENT};
use crate::field::get32;
use crate::layout::{zero, KIND_LEAF, LAST_NUMBER};
use crate::page::{self, LeafEntry};
use crate::place::Place;
use crate::reasons::first_failing;
use crate::report::Mends;
use crate::session::Session;
use crate::store::Store;
use crate::walk::{begin, enter, zero_fits, Damaged};
use crate::way::Way;
use std::ops::RangeInclusive;

/// A walk that climbs from the root anew for each leaf.
#[derive(Default)]
pub struct Climb {
    pub answer: u32,
    /// What it shows; nothing if it is refused.
    pub entries: Vec<LeafEntry>,
    /// The reason for each mend, in walking order.
    pub reasons: Vec<u32>,
}

impl Climb {
    /// Through a range while there is room, given whether the key asked for is whole.
    pub fn of(store: &mut Store, asked: RangeInclusive<u64>, room: usize, whole: bool) -> Climb {
        let mut climb = Climb {
            answer: begin(&store.working, &store.stable, &store.session, whole),
            ..Climb::default()
        };
        if climb.answer == DONE && climb.leaves(store, asked, room).is_err() {
            climb.answer = DAMAGED;
            climb.entries.clear();
        }
        climb
    }

    fn leaves(
        &mut self,
        store: &mut Store,
        asked: RangeInclusive<u64>,
        room: usize,
    ) -> Result<(), Damaged> {
        let mut next = Some(*asked.start());
        while let Some(from) = next.filter(|from| self.entries.len() < room && asked.contains(from))
        {
            let place = self.leaf(store, from)?;
            let leaf = page::page(&store.working, place.child);
            let more = page::leaf_entries(leaf)
                .filter(|entry| entry.key >= from && asked.contains(&entry.key));
            self.entries.extend(more.take(room - self.entries.len()));
            next = place.high.checked_add(1);
        }
        Ok(())
    }

    /// From the root to the leaf that holds the key. Why a page is lost is noted before it is entered.
    fn leaf(&mut self, store: &mut Store, key: u64) -> Result<Place, Damaged> {
        let session = &store.session;
        let mut way = Way::new();
        let mut place = Place::root(&store.working);
        loop {
            let child = page::page(&store.working, place.child);
            let reason = first_failing(&place, child, session.n);
            let untold = &mut Mends::default();
            enter(&mut store.working, session, &place, &way, untold)?;
            self.reasons
                .extend(Some(reason).filter(|&reason| reason > 0));
            way.push(place, 0);
            let entered = page::page(&store.working, place.child);
            if page::kind(entered) == KIND_LEAF {
                return Ok(place);
            }
            place = Place::below(entered, page::holding(entered, key));
        }
    }
}

/// Opening tests by entering one page after another on a copy of the stable table.
pub struct Entering {
    table: Vec<u8>,
    session: Session,
    children: Vec<u16>,
    lost_previous: Vec<u16>,
    entries: usize,
}

impl Entering {
    /// The answer and session that opening a table of n pages should give.
    pub fn open(stable: &[u8], n: u16) -> (u32, Session) {
        let none = Session::new(0, 0);
        let number = get32(stable, zero::NUMBER);
        let mut entering = Entering {
            table: stable.to_vec(),
            session: Session::new(n, number),
            children: Vec::new(),
            lost_previous: Vec::new(),
            entries: 0,
        };
        if !zero_fits(stable, n) || entering.page(Place::root(stable), &mut Way::new()).is_err() {
            return (DAMAGED, none);
        }
        if !entering.names_are_good() {
            return (DAMAGED, none);
        }
        if number > LAST_NUMBER {
            return (SPENT, none);
        }
        let mut session = entering.session;
        session.total = entering.entries as u32;
        for p in 1..n {
            let kept = entering.children.contains(&p) || entering.lost_previous.contains(&p);
            session.free[usize::from(p)] = !kept;
        }
        (DONE, session)
    }

    fn names_are_good(&self) -> bool {
        let mut sorted = self.children.clone();
        sorted.sort_unstable();
        let once = sorted.windows(2).all(|pair| pair[0] != pair[1]);
        let child = |previous| self.children.contains(previous);
        once && !self.lost_previous.iter().any(child)
    }

    fn page(&mut self, place: Place, way: &mut Way) -> Result<(), Damaged> {
        let lost = !place.fits(page::page(&self.table, place.child), self.session.n);
        let untold = &mut Mends::default();
        enter(&mut self.table, &self.session, &place, way, untold)?;
        self.children.push(place.child);
        if lost {
            self.lost_previous.push(place.previous);
        }
        let entered = *page::page(&self.table, place.child);
        if page::kind(&entered) == KIND_LEAF {
            self.entries += page::count(&entered);
        } else {
            way.push(place, 0);
            for index in 0..page::count(&entered) {
                self.page(Place::below(&entered, index), way)?;
            }
            way.pop();
        }
        Ok(())
    }
}
