//! The sentence writer: the words that a tree list spells.

use crate::answer::{Answer, Code, Refusal};
use crate::table::{Rule, Symbol, Table};
use crate::table_check;
use crate::tree::MOST_NODES;

/// Writes the words of the tree that the list describes.
pub fn write_sentence(table: &[u8], tree: &[u16], text: &mut [u16]) -> Answer {
    match words(table, tree, text.len()) {
        Ok(words) => {
            text[..words.len()].copy_from_slice(&words);
            Answer::written(words.len())
        }
        Err(refusal) => refusal.into(),
    }
}

fn words(table: &[u8], tree: &[u16], room: usize) -> Result<Vec<u16>, Refusal> {
    let table = table_check::check(table)?;
    let rules = rules_of(&table, tree)?;
    let words = spell(&mut rules.into_iter()).concat();
    if words.len() > room {
        return Err(Refusal::new(Code::TextRoom, words.len()));
    }
    Ok(words)
}

/// The rule of each node, if the list is a tree of the start category. One walk
/// from the left; `wanted` holds the categories still to come, the next one last.
fn rules_of<'a>(table: &'a Table, tree: &[u16]) -> Result<Vec<&'a Rule>, Refusal> {
    let wrong = |node: usize| Refusal::new(Code::TreeList, node);
    if tree.len() > MOST_NODES {
        return Err(wrong(MOST_NODES));
    }
    let mut wanted = vec![table.start];
    let mut rules = Vec::new();
    for (node, &function) in tree.iter().enumerate() {
        let category = wanted.pop().ok_or(wrong(node))?;
        let rule = table.rule(function).filter(|rule| rule.category == category);
        let rule = rule.ok_or(wrong(node))?;
        wanted.extend(rule.daughters.iter().rev());
        rules.push(rule);
    }
    if !wanted.is_empty() {
        return Err(wrong(tree.len()));
    }
    Ok(rules)
}

/// What the next tree spells in each of its constituents (document 000, section 3).
fn spell<'a>(rules: &mut impl Iterator<Item = &'a Rule>) -> Vec<Vec<u16>> {
    let rule = rules.next().expect("the list was found to be a whole tree");
    let daughters: Vec<Vec<Vec<u16>>> = rule.daughters.iter().map(|_| spell(rules)).collect();
    let symbol = |symbol: &Symbol| match *symbol {
        Symbol::Word(word) => vec![word],
        Symbol::Part { daughter, constituent } => daughters[daughter][constituent].clone(),
    };
    rule.rows.iter().map(|row| row.iter().flat_map(symbol).collect()).collect()
}
