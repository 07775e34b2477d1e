//! The session: what a store keeps from call to call beside its tables.

use crate::layout::PAGES_MOST;
use crate::way::Way;

/// Laid out as C lays it out: the proved store takes it so.
#[derive(Clone, Copy, PartialEq, Eq, Debug)]
#[repr(C)]
pub struct Session {
    pub n: u16,
    pub c: u32,
    /// How many certificates the store holds. A session handed in may hold any number: it wraps.
    pub total: u32,
    pub free: [bool; PAGES_MOST],
    pub waiting: [bool; PAGES_MOST],
}

impl Session {
    /// A session without marks and certificates. With n and c 0 it is what a refused opening hands out.
    pub fn new(n: u16, c: u32) -> Session {
        Session {
            n,
            c,
            total: 0,
            free: [false; PAGES_MOST],
            waiting: [false; PAGES_MOST],
        }
    }

    /// Whether an insert that entered the pages on `way` may take this page.
    fn usable(&self, number: u16, way: &Way) -> bool {
        self.free[usize::from(number)] && !way.holds(number)
    }

    /// How many pages such an insert may take.
    pub fn usable_count(&self, way: &Way) -> usize {
        (1..self.n).filter(|&p| self.usable(p, way)).count()
    }

    /// Takes the lowest of them. The caller has counted before.
    pub fn take(&mut self, way: &Way) -> u16 {
        let number = (1..self.n)
            .find(|&p| self.usable(p, way))
            .expect("a usable page was counted");
        self.free[usize::from(number)] = false;
        number
    }

    /// The page may be taken from now on. Its waiting mark stays as it is.
    pub fn free(&mut self, number: u16) {
        self.free[usize::from(number)] = true;
    }

    /// The page becomes free at the next sync. Its free mark stays as it is.
    pub fn wait(&mut self, number: u16) {
        self.waiting[usize::from(number)] = true;
    }

    /// A certificate was put in.
    pub fn one_more(&mut self) {
        self.total = self.total.wrapping_add(1);
    }

    /// A certificate was taken out.
    pub fn one_less(&mut self) {
        self.total = self.total.wrapping_sub(1);
    }

    /// A sync has reached the stable table: the counter rises, what waited is free.
    pub fn raise(&mut self) {
        for p in 1..usize::from(self.n) {
            self.free[p] |= self.waiting[p];
            self.waiting[p] = false;
        }
        self.c += 1;
    }
}
