//! Random valid tables: ranks 0 to 3, dimensions 1 to 3, with empty rows, rows
//! of words alone, rules that give their own daughter, and crossed parts.

use tables::{Description, Rule, Symbol};

use crate::chance::Chance;

/// Words that differ in one byte only, or in which byte is zero.
const WORDS: [u16; 7] = [7, 8, 9, 0x0107, 0x0700, 0xFF07, 0xFFFF];

/// A table, and the words that its rules were made from.
pub struct Grammar {
    pub description: Description,
    pub vocabulary: Vec<u16>,
}

/// A random valid table.
pub fn grammar(chance: &mut Chance) -> Grammar {
    let mut dimensions: Vec<u8> =
        (0..chance.from_to(1, 4)).map(|_| chance.pick(&[1, 1, 2, 2, 3])).collect();
    let start = chance.below(dimensions.len());
    dimensions[start] = 1;
    let vocabulary = (0..chance.from_to(1, 3)).map(|_| chance.pick(&WORDS)).collect();
    let mut making = Making { chance, dimensions, vocabulary, used: Vec::new() };
    let rules = making.rules();
    let Making { dimensions, vocabulary, .. } = making;
    let description = Description { start: start as u8 + 1, dimensions, rules };
    Grammar { description, vocabulary }
}

struct Making<'a> {
    chance: &'a mut Chance,
    dimensions: Vec<u8>,
    vocabulary: Vec<u16>,
    used: Vec<u16>,
}

impl Making<'_> {
    /// A leaf for most categories, and some rules of any kind, in any order.
    fn rules(&mut self) -> Vec<Rule> {
        let mut rules = Vec::new();
        for category in 1..=self.dimensions.len() as u8 {
            if !self.chance.once_in(4) {
                rules.push(self.rule(category, vec![]));
            }
        }
        for _ in 0..self.chance.from_to(0, 6) {
            let category = self.category();
            let rank = self.chance.pick(&[0, 1, 1, 2, 2, 2, 3]);
            let daughters = (0..rank).map(|_| self.category()).collect();
            rules.push(self.rule(category, daughters));
        }
        if self.chance.once_in(3) {
            let category = self.category();
            rules.push(self.turned(category));
        }
        self.chance.shuffle(&mut rules);
        rules
    }

    fn category(&mut self) -> u8 {
        self.chance.from_to(1, self.dimensions.len()) as u8
    }

    /// A rule with its parts dealt out to its rows, and some words between.
    fn rule(&mut self, category: u8, daughters: Vec<u8>) -> Rule {
        let mut rows = vec![Vec::new(); self.dimensions[category as usize - 1] as usize];
        for part in self.parts(&daughters) {
            let row = self.chance.below(rows.len());
            rows[row].push(part);
        }
        for row in &mut rows {
            for _ in 0..self.words_in_row(daughters.is_empty()) {
                let at = self.chance.from_to(0, row.len());
                row.insert(at, Symbol::Word(self.chance.pick(&self.vocabulary)));
            }
        }
        Rule { function: self.function(), category, daughters, rows }
    }

    /// A rule from a category to itself, without words, its parts perhaps turned.
    fn turned(&mut self, category: u8) -> Rule {
        let parts = self.parts(&[category]);
        let rows = parts.into_iter().map(|part| vec![part]).collect();
        Rule { function: self.function(), category, daughters: vec![category], rows }
    }

    /// All constituents of all daughters, in order or not.
    fn parts(&mut self, daughters: &[u8]) -> Vec<Symbol> {
        let mut parts = Vec::new();
        for (k, &daughter) in daughters.iter().enumerate() {
            let dimension = self.dimensions[daughter as usize - 1] as u16;
            parts.extend((1..=dimension).map(|c| Symbol::Part(k as u8 + 1, c)));
        }
        if !self.chance.once_in(3) {
            self.chance.shuffle(&mut parts);
        }
        parts
    }

    fn words_in_row(&mut self, leaf: bool) -> usize {
        match self.chance.below(40) {
            0 if leaf => self.chance.from_to(4, 16),
            1..=6 => 2,
            7..=12 => 1,
            _ if leaf && !self.chance.once_in(4) => 1,
            _ => 0,
        }
    }

    /// A function number that was not used before, small or of any size.
    fn function(&mut self) -> u16 {
        loop {
            let greatest = self.chance.pick(&[30, 30, 600, 65_535]);
            let function = self.chance.from_to(1, greatest) as u16;
            if !self.used.contains(&function) {
                self.used.push(function);
                return function;
            }
        }
    }
}

#[cfg(test)]
mod tests {
    use super::*;
    use reference::table_check::check;

    #[test]
    fn every_table_is_valid() {
        for seed in 0..2000 {
            let table = grammar(&mut Chance::new(seed)).description.bytes();
            assert!(check(&table).is_ok(), "seed {seed}");
        }
    }

    /// All kinds of rules that the comparison wants come up.
    #[test]
    fn all_kinds_of_rules_come_up() {
        let rules: Vec<Rule> =
            (0..2000).flat_map(|seed| grammar(&mut Chance::new(seed)).description.rules).collect();
        let some = |is: &dyn Fn(&Rule) -> bool| rules.iter().any(is);
        for rank in 0..=3 {
            for dimension in 1..=3 {
                assert!(some(&|rule| rule.daughters.len() == rank && rule.rows.len() == dimension));
            }
        }
        assert!(some(&|rule| rule.rows.iter().any(|row| row.is_empty())), "empty rows");
        assert!(some(&|rule| rule.rows.iter().any(|row| row.len() == 16)), "longest rows");
        assert!(some(
            &|rule| rule.daughters == [rule.category] && rule.rows[0] == [Symbol::Part(1, 1)]
        ));
        assert!(some(&|rule| rule.rows[0].starts_with(&[Symbol::Part(2, 1), Symbol::Part(1, 1)])));
    }
}
