//! The check of a chart that anyone may have made: code 17.

use crate::answer::{Code, Refusal};
use crate::chart::{Record, MOST_RECORDS, RECORD};
use crate::item::Item;
use crate::phrase::gives_this;
use crate::table::{Rule, Table};

/// The chart's first `count` records, if each is good by itself.
pub fn check(
    table: &Table,
    words: &[u16],
    chart: &[u16],
    count: usize,
) -> Result<Vec<Record>, Refusal> {
    if count > MOST_RECORDS || count > chart.len() / RECORD {
        return Err(Refusal::new(Code::Chart, 0));
    }
    let records: Vec<Record> = (0..count).map(|place| Record::at(chart, place)).collect();
    let lent = Lent { table, words, records: &records };
    match (0..count).find(|&place| !lent.is_good(place)) {
        Some(place) => Err(Refusal::new(Code::Chart, place)),
        None => Ok(records),
    }
}

struct Lent<'a> {
    table: &'a Table,
    words: &'a [u16],
    records: &'a [Record],
}

impl Lent<'_> {
    /// A record is judged by the numbers of its daughters as they stand.
    fn is_good(&self, place: usize) -> bool {
        let record = &self.records[place];
        let Some(rule) = self.table.rule(record.function) else { return false };
        let Some(daughters) = self.daughters(record, rule) else { return false };
        self.is_after_its_predecessor(place)
            && self.is_given(record, rule, &daughters)
            && record.daughters[rule.rank()..].iter().all(|&unused| unused == 0)
            && has_right_height(record, &daughters)
    }

    fn is_after_its_predecessor(&self, place: usize) -> bool {
        place == 0 || self.records[place - 1].item < self.records[place].item
    }

    /// The daughters' records, if all their places are below the count.
    fn daughters(&self, record: &Record, rule: &Rule) -> Option<Vec<Record>> {
        let places = &record.daughters[..rule.rank()];
        places.iter().map(|&place| self.records.get(place as usize).copied()).collect()
    }

    /// Whether the record's item is one that its function and daughters can give.
    fn is_given(&self, record: &Record, rule: &Rule, daughters: &[Record]) -> bool {
        let items: Vec<Item> = daughters.iter().map(|daughter| daughter.item).collect();
        let mut pairs = items.iter().zip(&rule.daughters);
        pairs.all(|(item, &category)| self.can_be_used(item, category))
            && gives_this(rule, &items, self.words, &record.item)
    }

    /// Whether a daughter has this category and its used ranges are the sentence's.
    fn can_be_used(&self, item: &Item, category: usize) -> bool {
        let mut used = item.ranges[..self.table.dimension(category)].iter();
        item.category as usize == category && used.all(|range| range.is_of(self.words.len()))
    }
}

fn has_right_height(record: &Record, daughters: &[Record]) -> bool {
    let greatest = daughters.iter().map(|daughter| daughter.height as usize).max().unwrap_or(0);
    record.height as usize == greatest + 1
}
