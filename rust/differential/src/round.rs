//! One random round: a table, sentences for it, and all calls on them, on good
//! input and on damaged input.

use reference::table_check::check;

use crate::chance::Chance;
use crate::damage;
use crate::foreign;
use crate::grammar::{grammar, Grammar};
use crate::mismatch::{Compared, Mismatch};
use crate::pair::{Lent, Pair};
use crate::sentences::{made, near_miss, thrown};

/// The most words of a sentence, in most rounds and in a large one.
const WORDS: usize = 7;
const MANY_WORDS: usize = 14;

/// Allowances of the first reading, in most rounds and in a large one.
const ALLOWANCES: [usize; 5] = [10, 40, 40, 40, 90];
const LARGE_ALLOWANCES: [usize; 2] = [90, 250];

/// One round; the same seed gives the same round.
pub fn round(pair: &mut Pair, seed: u64) -> Compared {
    let mut chance = Chance::new(seed);
    let large = chance.once_in(12);
    let grammar = grammar(&mut chance);
    let table = grammar.description.bytes();
    let made = made(&grammar, &mut chance, if large { MANY_WORDS } else { WORDS });
    let list = made.as_ref().map_or(vec![], |made| made.list.clone());
    let words = made.map_or(vec![], |made| made.words);
    let mut round = Round { pair, chance, grammar, table, large };
    round.one_sentence(&words)?;
    for sentence in round.other_sentences(&words) {
        round.one_sentence(&sentence)?;
    }
    round.lists(&list)?;
    round.damaged_tables(&words, &list)?;
    round.damaged_words(&words)
}

struct Round<'a, 'b> {
    pair: &'a mut Pair<'b>,
    chance: Chance,
    grammar: Grammar,
    table: Vec<u8>,
    large: bool,
}

impl Round<'_, '_> {
    fn other_sentences(&mut self, words: &[u16]) -> Vec<Vec<u16>> {
        let vocabulary = &self.grammar.vocabulary;
        vec![
            near_miss(words, vocabulary, &mut self.chance),
            near_miss(words, vocabulary, &mut self.chance),
            thrown(vocabulary, &mut self.chance, WORDS),
        ]
    }

    /// Reads one sentence in rooms of many sizes, and writes trees of its chart.
    fn one_sentence(&mut self, sentence: &[u16]) -> Compared {
        let words = tables::words(sentence);
        let allowances = if self.large { &LARGE_ALLOWANCES[..] } else { &ALLOWANCES };
        let allowance = self.chance.pick(allowances);
        let length = allowance * 12 + self.chance.below(12);
        let (answer, chart) = self.pair.read(&self.table, &words, allowance, length)?;
        if answer.code > 1 {
            return Ok(());
        }
        let count = answer.count as usize;
        self.rooms(&words, count)?;
        let goal = (answer.code == 0).then_some(answer.place as usize);
        self.trees(&words, &chart, count, goal)?;
        self.foreign_charts(sentence, &chart, count)?;
        self.damaged_charts(&words, &chart, count)
    }

    /// The same reading with room just enough, just too small, and of any size.
    fn rooms(&mut self, words: &[u8], count: usize) -> Compared {
        let enough = count * 12 + self.chance.below(12);
        let any = self.chance.below(enough + 12);
        let above = self.chance.pick(&[0, 2000, 2001, usize::MAX]);
        for (allowance, length) in [(0, enough), (count, enough + 30), (above, any)] {
            self.pair.read(&self.table, words, allowance, length)?;
        }
        if count > 0 {
            self.pair.read(&self.table, words, above, count * 12 - 1)?;
            self.pair.read(&self.table, words, 1 + self.chance.below(count), enough)?;
        }
        Ok(())
    }

    /// Trees of the goal and of other roots, and the sentence of the goal's tree.
    fn trees(
        &mut self,
        words: &[u8],
        chart: &[u16],
        count: usize,
        goal: Option<usize>,
    ) -> Compared {
        for root in [goal.unwrap_or(0), self.chance.below(count + 2), usize::MAX] {
            let list = self.one_tree(words, chart, (count, root))?;
            if Some(root) == goal && !list.is_empty() {
                self.lists(&list)?;
            }
        }
        Ok(())
    }

    /// The tree of one root in rooms of several sizes; its list, if it fits.
    fn one_tree(
        &mut self,
        words: &[u8],
        chart: &[u16],
        (count, root): (usize, usize),
    ) -> Result<Vec<u16>, Box<Mismatch>> {
        let table = self.table.clone();
        let lent = Lent { table: &table, words, chart };
        let (answer, mut list) = self.pair.tree(lent, count, root, 300)?;
        list.truncate(answer.count as usize);
        if answer.code == 0 {
            for length in [list.len(), list.len() - 1, self.chance.below(list.len() + 2)] {
                self.pair.tree(lent, count, root, length)?;
            }
        }
        Ok(list)
    }

    fn foreign_charts(&mut self, sentence: &[u16], chart: &[u16], count: usize) -> Compared {
        let checked = check(&self.table).expect("the tables of a round are valid");
        let records = foreign::records(chart, count);
        let other = foreign::other_derivations(&checked, sentence, &records, &mut self.chance);
        let part = foreign::part(&checked, &other, &mut self.chance);
        for records in [other, part] {
            let (numbers, count) = (foreign::numbers(&records), records.len());
            let words = tables::words(sentence);
            let root = self.chance.below(count + 1);
            self.one_tree(&words, &numbers, (count, root))?;
            self.damaged_charts(&words, &numbers, count)?;
        }
        Ok(())
    }

    fn damaged_charts(&mut self, words: &[u8], chart: &[u16], count: usize) -> Compared {
        for _ in 0..4 {
            let damaged = damage::chart(chart, count, &mut self.chance);
            let root = self.chance.below(count + 1);
            let lent = Lent { table: &self.table, words, chart: &damaged };
            self.pair.tree(lent, count, root, 30)?;
        }
        let count = self.chance.pick(&[count.saturating_sub(1), count + 1, count + 5, 2001]);
        self.pair.tree(Lent { table: &self.table, words, chart }, count, 0, 30)?;
        let fewer = &words[..words.len() / 4 * 2];
        let lent = Lent { table: &self.table, words: fewer, chart };
        self.pair.tree(lent, count, 0, 30)?;
        Ok(())
    }

    /// The sentence of a list in rooms of several sizes, and of damaged lists.
    fn lists(&mut self, list: &[u16]) -> Compared {
        let (answer, _) = self.pair.sentence(&self.table, list, 100)?;
        let words = answer.count as usize;
        for length in [words, words.saturating_sub(1), self.chance.below(words + 2)] {
            self.pair.sentence(&self.table, list, length)?;
        }
        let functions: Vec<u16> =
            self.grammar.description.rules.iter().map(|rule| rule.function).collect();
        for _ in 0..4 {
            let damaged = damage::list(list, &functions, &mut self.chance);
            self.pair.sentence(&self.table, &damaged, 100)?;
        }
        Ok(())
    }

    fn damaged_tables(&mut self, words: &[u16], list: &[u16]) -> Compared {
        let words = tables::words(words);
        let (answer, chart) = self.pair.read(&self.table, &words, 20, 250)?;
        for _ in 0..12 {
            let table = damage::table(&self.table, &mut self.chance);
            self.pair.sentence(&table, list, 100)?;
            self.pair.read(&table, &words, 20, 250)?;
            let lent = Lent { table: &table, words: &words, chart: &chart };
            self.pair.tree(lent, answer.count as usize, answer.place as usize, 30)?;
        }
        Ok(())
    }

    fn damaged_words(&mut self, words: &[u16]) -> Compared {
        for _ in 0..3 {
            let words = damage::words(&tables::words(words), &mut self.chance);
            self.pair.read(&self.table, &words, 20, 250)?;
            let lent = Lent { table: &self.table, words: &words, chart: &[] };
            self.pair.tree(lent, 0, 0, 30)?;
        }
        Ok(())
    }
}
