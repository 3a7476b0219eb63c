//! The items known so far: a set to ask, and a list for each category to walk.

use std::collections::HashSet;

/// A range of the sentence; (0, 0) is the empty one.
pub type Range = (u16, u16);

/// An item's ranges; unused ones are empty.
pub type Ranges = [Range; 3];

/// All known items.
pub struct Items {
    known: HashSet<(usize, Ranges)>,
    lists: Vec<Vec<Ranges>>,
}

impl Items {
    pub fn new(categories: usize) -> Items {
        Items { known: HashSet::new(), lists: vec![Vec::new(); categories + 1] }
    }

    pub fn len(&self) -> usize {
        self.known.len()
    }

    /// The items of one category, in the order in which they were found.
    pub fn of(&self, category: usize) -> &[Ranges] {
        &self.lists[category]
    }

    /// Adds an item; says whether it is new.
    pub fn add(&mut self, category: usize, ranges: Ranges) -> bool {
        let new = self.known.insert((category, ranges));
        if new {
            self.lists[category].push(ranges);
        }
        new
    }
}
