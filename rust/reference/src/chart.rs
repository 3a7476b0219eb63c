//! Records as they stand in a chart's slice: twelve two-byte numbers each.

use crate::item::Item;
use crate::range::Range;

/// How many numbers a record has.
pub const RECORD: usize = 12;

/// No chart holds more records than this.
pub const MOST_RECORDS: usize = 2000;

/// A record: category, function, height, three ranges, three daughters' places.
#[derive(Clone, Copy, PartialEq, Eq, Debug)]
pub struct Record {
    pub item: Item,
    pub function: u16,
    pub height: u16,
    pub daughters: [u16; 3],
}

impl Record {
    pub fn new(item: Item, function: u16, height: usize, places: &[usize]) -> Record {
        let mut daughters = [0; 3];
        for (number, &place) in daughters.iter_mut().zip(places) {
            *number = place as u16;
        }
        Record { item, function, height: height as u16, daughters }
    }

    /// The record's numbers.
    pub fn numbers(&self) -> [u16; RECORD] {
        let [one, two, three] = self.item.ranges;
        let [first, second, third] = self.daughters;
        [
            self.item.category,
            self.function,
            self.height,
            one.start,
            one.end,
            two.start,
            two.end,
            three.start,
            three.end,
            first,
            second,
            third,
        ]
    }

    /// The record at `place` of a slice, its numbers taken as they stand.
    pub fn at(chart: &[u16], place: usize) -> Record {
        let numbers = &chart[place * RECORD..(place + 1) * RECORD];
        let range = |at: usize| Range { start: numbers[at], end: numbers[at + 1] };
        Record {
            item: Item { category: numbers[0], ranges: [range(3), range(5), range(7)] },
            function: numbers[1],
            height: numbers[2],
            daughters: [numbers[9], numbers[10], numbers[11]],
        }
    }
}

/// Writes the records into a lent slice; every number after them becomes 0.
pub fn write(records: &[Record], chart: &mut [u16]) {
    chart.fill(0);
    for (place, record) in chart.chunks_exact_mut(RECORD).zip(records) {
        place.copy_from_slice(&record.numbers());
    }
}
