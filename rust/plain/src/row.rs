//! Running one row of a rule over the sentence.

use reference::table::Symbol;

use crate::items::{Range, Ranges};

const EMPTY: Range = (0, 0);

/// The ranges that the row can be with these daughters.
pub fn ranges(row: &[Symbol], daughters: &[&Ranges], words: &[u16], found: &mut Vec<Range>) {
    found.clear();
    match fixed_start(row, daughters) {
        Start::At(start) => found.extend(run(row, daughters, words, start)),
        Start::Nowhere => {}
        Start::Empty => found.push(EMPTY),
        Start::Anywhere => {
            found.extend((0..words.len()).filter_map(|start| run(row, daughters, words, start)))
        }
    }
}

/// Where a row can start.
enum Start {
    At(usize),
    Anywhere,
    Nowhere,
    Empty,
}

/// The first part that holds words says where the row starts: as many words
/// before it as the row has there.
fn fixed_start(row: &[Symbol], daughters: &[&Ranges]) -> Start {
    let mut words_before = 0;
    for symbol in row {
        let range = part(*symbol, daughters);
        if let Some((from, _)) = range.filter(|&range| range != EMPTY) {
            let start = (from as usize).checked_sub(words_before);
            return start.map_or(Start::Nowhere, Start::At);
        }
        words_before += range.is_none() as usize;
    }
    if words_before == 0 {
        Start::Empty
    } else {
        Start::Anywhere
    }
}

/// The range of a daughter's part; a word has none of its own.
fn part(symbol: Symbol, daughters: &[&Ranges]) -> Option<Range> {
    match symbol {
        Symbol::Word(_) => None,
        Symbol::Part { daughter, constituent } => Some(daughters[daughter][constituent]),
    }
}

/// Runs the row's symbols from an assumed start.
fn run(row: &[Symbol], daughters: &[&Ranges], words: &[u16], start: usize) -> Option<Range> {
    let mut at = start;
    for symbol in row {
        at = match *symbol {
            Symbol::Word(word) => (words.get(at) == Some(&word)).then_some(at + 1)?,
            Symbol::Part { daughter, constituent } => after(daughters[daughter][constituent], at)?,
        };
    }
    Some((start as u16, at as u16))
}

/// Where we are after a part that must start here or be empty.
fn after(range: Range, at: usize) -> Option<usize> {
    match range {
        EMPTY => Some(at),
        (from, to) => (from as usize == at).then_some(to as usize),
    }
}
