//! What is measured of each store.

use second::key::parts;

/// A store of certificates under the clock. Each answer is checked, so that no work is left out.
pub trait Subject {
    fn name(&self) -> &'static str;

    /// An empty store, nothing in it.
    fn clear(&mut self);

    /// Puts these in, with whatever that needs to be kept.
    fn fill(&mut self, keys: &[u64], records: &[u32]);

    fn lookup(&mut self, key: u64) -> Option<u32>;

    /// The record of a meter's largest issue.
    fn newest(&mut self, model: u16, serial: u32) -> Option<u32>;

    /// Looks up one after the other, with the records of those that are found; says how many.
    fn lookups(&mut self, keys: &[u64], records: &mut [u32]) -> usize {
        let mut found = 0;
        for (key, place) in keys.iter().zip(records) {
            if let Some(record) = self.lookup(*key) {
                *place = record;
                found += 1;
            }
        }
        found
    }

    /// The newest of each meter, likewise; a meter is the key of its issue 0.
    fn newests(&mut self, meters: &[u64], records: &mut [u32]) -> usize {
        let mut found = 0;
        for (meter, place) in meters.iter().zip(records) {
            let (model, serial, _) = parts(*meter);
            if let Some(record) = self.newest(model, serial) {
                *place = record;
                found += 1;
            }
        }
        found
    }

    /// How many certificates there are, each of them read.
    fn list(&mut self) -> usize;

    /// Puts one in, not yet kept.
    fn put(&mut self, key: u64, record: u32);

    /// Keeps what was put in.
    fn sync(&mut self);

    /// Opens the store anew; false if it has no such thing.
    fn open(&mut self) -> bool {
        false
    }

    /// Lookups of which each mends its leaf; false if it has no such thing.
    fn mend(&mut self, _count: usize) -> bool {
        false
    }

    /// Calls that are refused at once; false if it has no such thing.
    fn refused(&mut self, _count: usize) -> bool {
        false
    }
}
