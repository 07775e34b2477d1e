//! Quiet restarts: between two openings no certificate has come or gone, and nothing was synced.

use super::call::{numbers, Mix};
use super::counters::Counters;
use super::mix::{differing, FEW};
use super::player::{must, Played, Player};
use super::set::Set;
use crate::field::{get32, put32};
use crate::layout::zero;
use crate::store::Store;

/// What an opening has shown, and the stable table it left.
pub struct Opened {
    found: Set,
    total: u32,
    stable: Vec<u8>,
}

impl Opened {
    pub fn of(store: &Store, found: &Set) -> Opened {
        Opened {
            found: found.clone(),
            total: store.session.total,
            stable: store.stable.clone(),
        }
    }
}

impl Player {
    /// The last opening, if the stretch since is quiet: a crash inside a sync is not.
    pub(super) fn quiet(&self, inside_sync: bool) -> Option<&Opened> {
        let untouched = self.states.touched().next().is_none();
        self.opened.as_ref().filter(|_| untouched && !inside_sync)
    }

    /// K13: after a quiet stretch the next opening shows what the last has shown, and apart from page 0's
    /// number every page that no call between has mended has the same stable bytes. The calls' own walks say
    /// which they have mended.
    pub(super) fn restarts(
        &self,
        mix: Mix,
        next: &Store,
        found: &Set,
        counters: &mut Counters,
    ) -> Played {
        let Some(first) = self.quiet(mix.inside_sync) else {
            return Ok(());
        };
        let same = *found == first.found && next.session.total == first.total;
        must(same, || "a quiet restart shows another set".to_string())?;
        let mut stable = first.stable.clone();
        let number = get32(&next.stable, zero::NUMBER);
        put32(&mut stable, zero::NUMBER, number);
        let changed = differing(&stable, &next.stable);
        let mended = self.store.mended;
        must(changed & !mended == 0, || {
            let pages: Vec<usize> = numbers(changed & !mended).collect();
            format!("a quiet restart finds pages {pages:?} changed, which no call has mended")
        })?;
        counters.add("quiet restarts");
        let kept = mended & !changed != 0;
        counters.add_if(changed != 0, "quiet restarts with a mended page written");
        counters.add_if(kept, "quiet restarts with a mended page not written");
        let many = self.differing().count_ones() as usize > FEW;
        counters.add_if(many, "quiet restarts with many mended pages");
        Ok(())
    }
}
