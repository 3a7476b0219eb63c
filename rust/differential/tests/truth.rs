//! The reference against document 01's words themselves. An item is true when
//! some tree spells exactly the words of its range: here the strings of all
//! trees are made, without ranges or joining, and held against the chart. Then
//! what document 01 promises across the calls.

use std::collections::BTreeMap;

use differential::chance::Chance;
use differential::grammar::{grammar, Grammar};
use differential::sentences::{made, near_miss};
use reference::chart::Record;
use reference::item::Item;
use reference::range::Range;
use reference::table::{Rule, Symbol, Table};
use reference::table_check::check;
use reference::{read, write_sentence, write_tree, Answer};

/// A category and what a tree of it spells in each constituent.
type Spelled = (usize, Vec<Vec<u16>>);

/// The fewest levels of a tree that spells this.
type Levels = BTreeMap<Spelled, usize>;

/// All that trees spell, as far as every constituent stands in the sentence.
fn spelled_in(table: &Table, sentence: &[u16]) -> Levels {
    let mut known = Levels::new();
    for level in 1.. {
        let fresh = spelled_next(table, sentence, &known);
        if fresh.is_empty() {
            break;
        }
        known.extend(fresh.into_iter().map(|spelled| (spelled, level)));
    }
    known
}

/// What trees of one level more spell, and no smaller ones.
fn spelled_next(table: &Table, sentence: &[u16], known: &Levels) -> Vec<Spelled> {
    let stands = |string: &Vec<u16>| places(string, sentence).next().is_some();
    let mut fresh = Vec::new();
    for rule in &table.rules {
        let all = sequences(rule, known).into_iter();
        let spelled = all.map(|daughters| (rule.category, spell(rule, &daughters)));
        let new =
            spelled.filter(|spelled| spelled.1.iter().all(stands) && !known.contains_key(spelled));
        fresh.extend(new);
    }
    fresh
}

fn sequences<'a>(rule: &Rule, known: &'a Levels) -> Vec<Vec<&'a Vec<Vec<u16>>>> {
    let mut sequences = vec![vec![]];
    for category in &rule.daughters {
        let of_category = || known.keys().filter(move |(other, _)| other == category);
        let longer = |one: Vec<&'a Vec<Vec<u16>>>| {
            of_category()
                .map(move |(_, strings)| [&one[..], &[strings]].concat())
                .collect::<Vec<_>>()
        };
        sequences = sequences.into_iter().flat_map(longer).collect();
    }
    sequences
}

/// Document 000, section 3: each part is put in its place.
fn spell(rule: &Rule, daughters: &[&Vec<Vec<u16>>]) -> Vec<Vec<u16>> {
    let symbol = |symbol: &Symbol| match *symbol {
        Symbol::Word(word) => vec![word],
        Symbol::Part { daughter, constituent } => daughters[daughter][constituent].clone(),
    };
    rule.rows.iter().map(|row| row.iter().flat_map(symbol).collect()).collect()
}

/// The ranges whose words are this string; the empty string has one.
fn places<'a>(string: &'a [u16], sentence: &'a [u16]) -> Box<dyn Iterator<Item = Range> + 'a> {
    if string.is_empty() {
        return Box::new(std::iter::once(Range::EMPTY));
    }
    let windows = sentence.windows(string.len()).enumerate();
    let equal = windows.filter(move |(_, window)| *window == string);
    Box::new(equal.map(move |(start, _)| Range::new(start, start + string.len())))
}

/// All true items with their heights, from the strings.
fn true_items(table: &Table, sentence: &[u16]) -> Vec<(Item, usize)> {
    let mut items = Vec::new();
    for ((category, strings), level) in spelled_in(table, sentence) {
        let mut some = vec![Item::of(category)];
        for (row, string) in strings.iter().enumerate() {
            let all = |item: Item| places(string, sentence).map(move |range| item.with(row, range));
            some = some.into_iter().flat_map(all).collect();
        }
        items.extend(some.into_iter().map(|item| (item, level)));
    }
    items.sort();
    items
}

/// A reading by the reference with room for 60.
struct Case {
    grammar: Grammar,
    sentence: Vec<u16>,
    list: Vec<u16>,
    answer: Answer,
    records: Vec<Record>,
}

/// The cases of these seeds: what a tree spells, and a near miss of it.
fn cases(seeds: std::ops::Range<u64>) -> Vec<Case> {
    let mut cases = Vec::new();
    for seed in seeds {
        let chance = &mut Chance::new(seed);
        let grammar = grammar(chance);
        let Some(made) = made(&grammar, chance, 6) else { continue };
        let miss = near_miss(&made.words, &grammar.vocabulary, chance);
        let sentence = if chance.once_in(2) { made.words } else { miss };
        let table = grammar.description.bytes();
        let mut chart = vec![0; 60 * 12];
        let answer = read(&table, &tables::words(&sentence), 0, &mut chart);
        let records = (0..answer.count as usize).map(|place| Record::at(&chart, place)).collect();
        cases.push(Case { grammar, sentence, list: made.list, answer, records });
    }
    cases
}

#[test]
fn the_chart_holds_what_trees_spell_at_the_fewest_levels() {
    let mut compared = 0;
    for case in cases(0..800) {
        if case.answer.code > 1 {
            continue;
        }
        let table = check(&case.grammar.description.bytes()).expect("a valid table");
        let found: Vec<(Item, usize)> =
            case.records.iter().map(|record| (record.item, record.height as usize)).collect();
        assert_eq!(found, true_items(&table, &case.sentence));
        compared += 1;
    }
    assert!(compared > 300, "{compared}");
}

#[test]
fn the_order_of_rules_does_not_matter() {
    for (seed, mut case) in cases(0..400).into_iter().enumerate() {
        let before = case.grammar.description.bytes();
        Chance::new(seed as u64).shuffle(&mut case.grammar.description.rules);
        let after = case.grammar.description.bytes();
        let words = tables::words(&case.sentence);
        let (mut one, mut other) = (vec![1; 730], vec![1; 730]);
        assert_eq!(read(&before, &words, 0, &mut one), read(&after, &words, 0, &mut other));
        assert_eq!(one, other);
    }
}

#[test]
fn the_goals_tree_spells_the_sentence_again() {
    let mut spelled = 0;
    for case in cases(0..800) {
        if case.answer.code != 0 {
            continue;
        }
        let table = case.grammar.description.bytes();
        let chart: Vec<u16> = case.records.iter().flat_map(|record| record.numbers()).collect();
        let (count, goal) = (case.records.len(), case.answer.place as usize);
        let mut tree = [0; 255];
        let words = tables::words(&case.sentence);
        let written = write_tree(&table, &words, &chart, count, goal, &mut tree);
        assert_eq!(written.code, 0, "the reader's own charts pass, and these trees are small");
        let mut text = vec![0; case.sentence.len()];
        let answer = write_sentence(&table, &tree[..written.count as usize], &mut text);
        assert_eq!((answer.code, text), (0, case.sentence));
        spelled += 1;
    }
    assert!(spelled > 150, "{spelled}");
}

#[test]
fn a_list_that_is_accepted_is_answered_yes_or_full() {
    for case in cases(0..800) {
        let table = case.grammar.description.bytes();
        let mut text = [0; 64];
        let answer = write_sentence(&table, &case.list, &mut text);
        assert_eq!(answer.code, 0);
        let words = tables::words(&text[..answer.count as usize]);
        let answer = read(&table, &words, 0, &mut vec![0; 400]);
        assert!(answer.code == 0 || answer.code == 16);
    }
}

#[test]
fn every_height_up_to_the_greatest_occurs() {
    for case in cases(0..400) {
        let mut heights: Vec<u16> = case.records.iter().map(|record| record.height).collect();
        heights.sort();
        heights.dedup();
        assert!(heights.iter().enumerate().all(|(index, &height)| height as usize == index + 1));
    }
}
