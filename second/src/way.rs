//! The way from the root: the places entered, each below the one before.

use crate::layout::LEVELS;
use crate::place::Place;

/// One place on the way.
#[derive(Clone, Copy, Debug)]
pub struct Step {
    pub place: Place,
    /// Which entry of the page above asks for it; 0 for the root.
    pub index: usize,
}

#[derive(Clone, Copy, Debug)]
pub struct Way {
    steps: [Option<Step>; LEVELS],
    length: usize,
}

impl Way {
    pub fn new() -> Way {
        Way {
            steps: [None; LEVELS],
            length: 0,
        }
    }

    /// One level lower. Kinds fall from page to page, so the room never runs out.
    pub fn push(&mut self, place: Place, index: usize) {
        self.steps[self.length] = Some(Step { place, index });
        self.length += 1;
    }

    pub fn pop(&mut self) {
        self.length -= 1;
    }

    pub fn len(&self) -> usize {
        self.length
    }

    pub fn is_empty(&self) -> bool {
        self.length == 0
    }

    /// The place at a depth; the root has depth 0.
    pub fn at(&self, depth: usize) -> Step {
        self.steps[..self.length][depth].expect("a step within the length")
    }

    /// The lowest place.
    pub fn last(&self) -> Step {
        self.at(self.length - 1)
    }

    /// Whether a page of the way has this number.
    pub fn holds(&self, number: u16) -> bool {
        (0..self.length).any(|depth| self.at(depth).place.child == number)
    }
}

impl Default for Way {
    fn default() -> Way {
        Way::new()
    }
}
