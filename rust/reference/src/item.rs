//! Items: a category and its one to three ranges.

use crate::range::Range;
use crate::table::Table;

/// An item. Unused ranges are (0, 0). The derived order is chart order: by
/// category, then the six range numbers as they stand.
#[derive(Clone, Copy, PartialEq, Eq, PartialOrd, Ord, Hash, Debug)]
pub struct Item {
    pub category: u16,
    pub ranges: [Range; 3],
}

impl Item {
    /// An item of this category with all ranges empty.
    pub fn of(category: usize) -> Item {
        Item { category: category as u16, ranges: [Range::EMPTY; 3] }
    }

    /// This item with range number `row` replaced.
    pub fn with(mut self, row: usize, range: Range) -> Item {
        self.ranges[row] = range;
        self
    }

    /// The goal: the start category with (0, n).
    pub fn goal(table: &Table, n: usize) -> Item {
        Item::of(table.start).with(0, Range::new(0, n))
    }
}
