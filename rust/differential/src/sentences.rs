//! Sentences for a table: what random trees of it spell, near misses of that,
//! and words thrown together.

use reference::write_sentence;
use tables::{Description, Rule};

use crate::chance::Chance;
use crate::grammar::Grammar;

/// A tree of the start category, as a list, and the words that it spells.
pub struct Made {
    pub list: Vec<u16>,
    pub words: Vec<u16>,
}

/// A random tree that spells at most `most` words, if a few tries find one.
pub fn made(grammar: &Grammar, chance: &mut Chance, most: usize) -> Option<Made> {
    let trees = Trees::new(&grammar.description);
    let table = grammar.description.bytes();
    let start = grammar.description.start;
    let least = trees.least[start as usize - 1]?;
    for further in [3, 2, 2, 1, 1, 0] {
        let list = trees.grow(chance, start, least + further);
        let mut text = vec![0; 255 * 48];
        let answer = write_sentence(&table, &list, &mut text);
        if answer.code == 0 && answer.count as usize <= most {
            text.truncate(answer.count as usize);
            return Some(Made { list, words: text });
        }
    }
    None
}

/// Random trees of a table.
struct Trees<'a> {
    rules: &'a [Rule],
    /// The fewest levels of a tree of each category, if it has one.
    least: Vec<Option<usize>>,
}

impl<'a> Trees<'a> {
    fn new(description: &'a Description) -> Trees<'a> {
        let least = vec![None; description.dimensions.len()];
        let mut trees = Trees { rules: &description.rules, least };
        for _ in 0..description.dimensions.len() {
            trees.find_lower();
        }
        trees
    }

    fn find_lower(&mut self) {
        for rule in self.rules {
            let Some(levels) = self.levels(rule) else { continue };
            let least = &mut self.least[rule.category as usize - 1];
            *least = Some(least.map_or(levels, |least| least.min(levels)));
        }
    }

    /// The fewest levels of a tree with this rule at its root.
    fn levels(&self, rule: &Rule) -> Option<usize> {
        let daughters = rule.daughters.iter().map(|&daughter| self.least[daughter as usize - 1]);
        daughters
            .into_iter()
            .try_fold(0, |most, levels| Some(most.max(levels?)))
            .map(|most| most + 1)
    }

    /// A random tree of at most this many levels, as a list.
    fn grow(&self, chance: &mut Chance, category: u8, levels: usize) -> Vec<u16> {
        let fits = |rule: &&Rule| {
            rule.category == category && self.levels(rule).is_some_and(|least| least <= levels)
        };
        let rules: Vec<&Rule> = self.rules.iter().filter(fits).collect();
        let rule = chance.pick(&rules);
        let mut list = vec![rule.function];
        for &daughter in &rule.daughters {
            list.extend(self.grow(chance, daughter, levels - 1));
        }
        list
    }
}

/// The sentence with one word changed, dropped, put in or swapped with another.
pub fn near_miss(words: &[u16], vocabulary: &[u16], chance: &mut Chance) -> Vec<u16> {
    let mut words = words.to_vec();
    let at = chance.from_to(0, words.len());
    match chance.below(4) {
        0 if at < words.len() => words[at] = chance.pick(vocabulary),
        1 if at < words.len() => {
            words.remove(at);
        }
        2 if at < words.len() => {
            let other = chance.below(words.len());
            words.swap(at, other);
        }
        _ => words.insert(at, chance.pick(vocabulary)),
    }
    words
}

/// Words thrown together.
pub fn thrown(vocabulary: &[u16], chance: &mut Chance, most: usize) -> Vec<u16> {
    (0..chance.from_to(0, most)).map(|_| chance.pick(vocabulary)).collect()
}

#[cfg(test)]
mod tests {
    use super::*;
    use crate::grammar::grammar;
    use reference::read;

    /// What a tree spells is a yes, or there is no room (document 01).
    #[test]
    fn what_a_tree_spells_is_a_yes() {
        let mut found = 0;
        for seed in 0..300 {
            let chance = &mut Chance::new(seed);
            let grammar = grammar(chance);
            let Some(made) = made(&grammar, chance, 6) else { continue };
            let mut chart = vec![0; 100 * 12];
            let table = grammar.description.bytes();
            let answer = read(&table, &tables::words(&made.words), 0, &mut chart);
            assert!(answer.code == 0 || answer.code == 16, "seed {seed}");
            found += (answer.code == 0) as usize;
        }
        assert!(found > 100, "{found}");
    }

    #[test]
    fn a_near_miss_is_one_step_away() {
        let mut chance = Chance::new(3);
        for _ in 0..200 {
            let miss = near_miss(&[1, 2, 3, 4], &[5], &mut chance);
            assert!((3..=5).contains(&miss.len()));
        }
        assert_eq!(near_miss(&[], &[5], &mut chance), [5]);
    }
}
