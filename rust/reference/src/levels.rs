//! All true items with their heights, level by level.

use std::collections::{BTreeMap, BTreeSet};
use std::ops::ControlFlow;

use crate::combinations::each_sequence;
use crate::item::Item;
use crate::phrase::gives;
use crate::table::{Rule, Table};

/// Items and their heights; a map stands in chart order by itself.
pub type Heights = BTreeMap<Item, usize>;

/// All true items with their heights, or nothing if they number more than `room`.
///
/// The items of height h + 1 are those that some rule gives from items of
/// height at most h, one of them of height h, and that have no less height.
pub fn true_items(table: &Table, words: &[u16], room: usize) -> Option<Heights> {
    let mut known = Heights::new();
    let mut height = 1;
    loop {
        let fresh = level(table, words, room, &known, height)?;
        if fresh.is_empty() {
            return Some(known);
        }
        known.extend(fresh.into_iter().map(|item| (item, height)));
        height += 1;
    }
}

/// The items of this height, when all lower ones are known.
fn level(
    table: &Table,
    words: &[u16],
    room: usize,
    known: &Heights,
    height: usize,
) -> Option<BTreeSet<Item>> {
    let mut level = Level {
        words,
        room,
        known,
        height,
        items: known.keys().copied().collect(),
        heights: known.values().copied().collect(),
        fresh: BTreeSet::new(),
    };
    for rule in &table.rules {
        if level.take(rule).is_break() {
            return None;
        }
    }
    Some(level.fresh)
}

struct Level<'a> {
    words: &'a [u16],
    room: usize,
    known: &'a Heights,
    height: usize,
    items: Vec<Item>,
    heights: Vec<usize>,
    fresh: BTreeSet<Item>,
}

impl Level<'_> {
    /// Takes in what the rule gives; breaks off when there are more items than room.
    fn take(&mut self, rule: &Rule) -> ControlFlow<()> {
        let Level { words, room, known, height, items, heights, fresh } = self;
        each_sequence(rule, items, words, &mut |places, daughters| {
            if greatest(places, heights) + 1 != *height {
                return ControlFlow::Continue(());
            }
            let given = gives(rule, daughters, words);
            fresh.extend(given.into_iter().filter(|item| !known.contains_key(item)));
            if known.len() + fresh.len() > *room {
                return ControlFlow::Break(());
            }
            ControlFlow::Continue(())
        })
    }
}

/// The greatest height at these places, 0 if there are none.
pub fn greatest(places: &[usize], heights: &[usize]) -> usize {
    places.iter().map(|&place| heights[place]).max().unwrap_or(0)
}
