//! What one rule with given daughters gives in a sentence.

use crate::item::Item;
use crate::range::{Joining, Range};
use crate::table::{Rule, Symbol};

/// All items that the rule gives from these daughters, each once. There may be
/// several: a row of words alone stands wherever its words stand.
pub fn gives(rule: &Rule, daughters: &[Item], words: &[u16]) -> Vec<Item> {
    let mut items = vec![Item::of(rule.category)];
    for (number, row) in rule.rows.iter().enumerate() {
        let ranges = row_ranges(row, daughters, words);
        let with_each = |item: &Item| -> Vec<Item> {
            ranges.iter().map(|&range| item.with(number, range)).collect()
        };
        items = items.iter().flat_map(with_each).collect();
    }
    items
}

/// Whether `item` is among the items that the rule gives from these daughters.
pub fn gives_this(rule: &Rule, daughters: &[Item], words: &[u16], item: &Item) -> bool {
    let mut rows = rule.rows.iter().enumerate();
    item.category as usize == rule.category
        && rows
            .all(|(number, row)| row_ranges(row, daughters, words).contains(&item.ranges[number]))
        && item.ranges[rule.rows.len()..].iter().all(|range| range.is_empty())
}

/// All ranges that a row can be, each once.
pub fn row_ranges(row: &[Symbol], daughters: &[Item], words: &[u16]) -> Vec<Range> {
    let mut ranges = vec![Range::EMPTY];
    for &symbol in row {
        let next = symbol_ranges(symbol, daughters, words);
        ranges = joined(&ranges, &next);
    }
    ranges
}

/// All ranges that a symbol can be.
fn symbol_ranges(symbol: Symbol, daughters: &[Item], words: &[u16]) -> Vec<Range> {
    match symbol {
        Symbol::Part { daughter, constituent } => vec![daughters[daughter].ranges[constituent]],
        Symbol::Word(word) => {
            let places = (0..words.len()).filter(|&place| words[place] == word);
            places.map(|place| Range::new(place, place + 1)).collect()
        }
    }
}

/// Every range on the left with every range on the right, where they join.
fn joined(left: &[Range], right: &[Range]) -> Vec<Range> {
    let pairs = left.iter().flat_map(|one| right.iter().map(move |next| one.join(*next)));
    pairs
        .filter_map(|joining| match joining {
            Joining::Joined(range) => Some(range),
            Joining::Apart => None,
        })
        .collect()
}

/// Whether no row is ruled out by the daughters known so far (the first ones).
/// It only saves time: what it refuses gives nothing with any further daughters.
pub fn may_still_give(rule: &Rule, known: &[Item], words: &[u16]) -> bool {
    rule.rows.iter().all(|row| row_may_still_join(row, known, words))
}

fn row_may_still_join(row: &[Symbol], known: &[Item], words: &[u16]) -> bool {
    let mut symbols = row.iter();
    symbols.try_fold(End::Open, |end, &symbol| end_after(end, symbol, known, words)).is_some()
}

/// Where a row's stretch ends, as far as the known daughters tell.
#[derive(Clone, Copy)]
enum End {
    At(u16),
    Open,
}

/// The end after one more symbol, or nothing if the symbol can't stand there.
fn end_after(end: End, symbol: Symbol, known: &[Item], words: &[u16]) -> Option<End> {
    match (symbol, end) {
        (Symbol::Word(_), End::Open) => Some(End::Open),
        (Symbol::Word(word), End::At(place)) => {
            (words.get(place as usize) == Some(&word)).then_some(End::At(place + 1))
        }
        (Symbol::Part { daughter, .. }, _) if daughter >= known.len() => Some(End::Open),
        (Symbol::Part { daughter, constituent }, _) => {
            end_after_range(end, known[daughter].ranges[constituent])
        }
    }
}

fn end_after_range(end: End, range: Range) -> Option<End> {
    match end {
        _ if range.is_empty() => Some(end),
        End::At(place) if place != range.start => None,
        _ => Some(End::At(range.end)),
    }
}

#[cfg(test)]
mod tests {
    use super::*;

    fn rule(rows: Vec<Vec<Symbol>>, daughters: Vec<usize>) -> Rule {
        Rule { function: 1, category: 1, daughters, rows }
    }

    const FIRST: Symbol = Symbol::Part { daughter: 0, constituent: 0 };

    #[test]
    fn a_row_of_words_stands_wherever_its_words_stand() {
        let rule = rule(vec![vec![Symbol::Word(7), Symbol::Word(8)]], vec![]);
        let items = gives(&rule, &[], &[7, 8, 9, 7, 8]);
        let expected = [Range::new(0, 2), Range::new(3, 5)].map(|range| Item::of(1).with(0, range));
        assert_eq!(items, expected);
    }

    #[test]
    fn an_empty_part_leaves_the_words_free() {
        let rule = rule(vec![vec![Symbol::Word(7), FIRST]], vec![2]);
        assert_eq!(gives(&rule, &[Item::of(2)], &[7, 9, 7]).len(), 2);
        let held = Item::of(2).with(0, Range::new(1, 2));
        assert_eq!(gives(&rule, &[held], &[7, 9, 7]), [Item::of(1).with(0, Range::new(0, 2))]);
    }

    #[test]
    fn nothing_in_a_row_is_the_one_empty_range() {
        let rule = rule(vec![vec![], vec![FIRST]], vec![2]);
        assert_eq!(gives(&rule, &[Item::of(2)], &[7, 7]), [Item::of(1)]);
    }
}
