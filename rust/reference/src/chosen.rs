//! The chosen rule and daughters of every true item.

use std::ops::ControlFlow;

use crate::chart::Record;
use crate::combinations::each_sequence;
use crate::item::Item;
use crate::levels::{greatest, Heights};
use crate::phrase::gives;
use crate::table::{Rule, Table};

/// The records of all true items, in chart order.
///
/// Rules are walked by function number and daughters by their places, so the
/// first derivation met that has the right heights is the chosen one.
pub fn records(table: &Table, words: &[u16], known: &Heights) -> Vec<Record> {
    let mut choosing = Choosing {
        words,
        items: known.keys().copied().collect(),
        heights: known.values().copied().collect(),
        records: vec![None; known.len()],
    };
    let mut rules: Vec<&Rule> = table.rules.iter().collect();
    rules.sort_by_key(|rule| rule.function);
    for rule in rules {
        choosing.take(rule);
    }
    let records = choosing.records.into_iter();
    records.map(|record| record.expect("every true item has a derivation")).collect()
}

struct Choosing<'a> {
    words: &'a [u16],
    items: Vec<Item>,
    heights: Vec<usize>,
    records: Vec<Option<Record>>,
}

impl Choosing<'_> {
    fn take(&mut self, rule: &Rule) {
        let Choosing { words, items, heights, records } = self;
        let _ = each_sequence(rule, items, words, &mut |places, daughters| {
            let height = 1 + greatest(places, heights);
            for item in gives(rule, daughters, words) {
                let place = items.binary_search(&item).expect("a given item is true");
                if heights[place] == height {
                    records[place]
                        .get_or_insert_with(|| Record::new(item, rule.function, height, places));
                }
            }
            ControlFlow::Continue(())
        });
    }
}
