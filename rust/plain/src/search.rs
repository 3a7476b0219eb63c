//! Repeating all rules over all combinations of known items.

use reference::table::{Rule, Table};

use crate::items::{Items, Range, Ranges};
use crate::row;

/// The number of true items, or nothing if they are more than the limit.
pub fn search(table: &Table, words: &[u16], limit: usize) -> Option<usize> {
    let mut items = Items::new(table.dimensions.len());
    loop {
        let before = items.len();
        for rule in &table.rules {
            let given = Giving { rule, items: &items, words, given: Vec::new() }.all();
            for ranges in given {
                items.add(rule.category, ranges);
            }
            if items.len() > limit {
                return None;
            }
        }
        if items.len() == before {
            return Some(before);
        }
    }
}

/// All that one rule gives from the known items.
struct Giving<'a> {
    rule: &'a Rule,
    items: &'a Items,
    words: &'a [u16],
    given: Vec<Ranges>,
}

impl<'a> Giving<'a> {
    fn all(mut self) -> Vec<Ranges> {
        self.combine(&mut Vec::with_capacity(3));
        self.given
    }

    /// Goes over the next daughter's items, all of them.
    fn combine(&mut self, daughters: &mut Vec<&'a Ranges>) {
        let Some(&category) = self.rule.daughters.get(daughters.len()) else {
            return self.give(daughters);
        };
        let items = self.items;
        for daughter in items.of(category) {
            daughters.push(daughter);
            self.combine(daughters);
            daughters.pop();
        }
    }

    /// Adds what the rule gives from these daughters.
    fn give(&mut self, daughters: &[&Ranges]) {
        let mut rows: [Vec<Range>; 3] = [vec![], vec![], vec![]];
        for (row, ranges) in self.rule.rows.iter().zip(&mut rows) {
            row::ranges(row, daughters, self.words, ranges);
            if ranges.is_empty() {
                return;
            }
        }
        for unused in &mut rows[self.rule.rows.len()..] {
            unused.push((0, 0));
        }
        let [one, two, three] = &rows;
        let pairs = one.iter().flat_map(|a| two.iter().map(move |b| (*a, *b)));
        let all = pairs.flat_map(|(a, b)| three.iter().map(move |c| [a, b, *c]));
        self.given.extend(all);
    }
}
