//! One call on both sides, on equal slices that are filled with a mark first,
//! so that whatever must stay as lent is seen.

use std::collections::BTreeMap;

use reference::Answer;

use crate::calls::Calls;
use crate::mismatch::{hex, hex_numbers, Mismatch, Side};

/// What stands in every slice before it is lent.
pub const LENT: u16 = 0xABCD;

/// Two implementations, and how often each answer came up.
pub struct Pair<'a> {
    one: &'a dyn Calls,
    other: &'a dyn Calls,
    /// By call and code, how often the first side gave it.
    pub tally: BTreeMap<(&'static str, u64), usize>,
}

/// What both sides agree on: the answer, and the slice afterwards.
pub type Agreed = Result<(Answer, Vec<u16>), Box<Mismatch>>;

impl<'a> Pair<'a> {
    pub fn new(one: &'a dyn Calls, other: &'a dyn Calls) -> Pair<'a> {
        Pair { one, other, tally: BTreeMap::new() }
    }

    /// The reader on a chart slice of `length` numbers.
    pub fn read(&mut self, table: &[u8], words: &[u8], allowance: usize, length: usize) -> Agreed {
        let side = |calls: &dyn Calls| {
            let mut chart = vec![LENT; length];
            let answer = calls.read(table, words, allowance, &mut chart);
            Side { answer, slice: chart }
        };
        let input = || {
            vec![
                ("table", hex(table)),
                ("words", hex(words)),
                ("allowance", allowance.to_string()),
                ("numbers in the chart slice", length.to_string()),
            ]
        };
        let sides = (side(self.one), side(self.other));
        self.agreed("read", input, sides)
    }

    /// The tree writer on a slice of `length` numbers.
    pub fn tree(&mut self, lent: Lent, count: usize, root: usize, length: usize) -> Agreed {
        let Lent { table, words, chart } = lent;
        let side = |calls: &dyn Calls| {
            let mut tree = vec![LENT; length];
            let answer = calls.tree(table, words, chart, count, root, &mut tree);
            Side { answer, slice: tree }
        };
        let input = || {
            vec![
                ("table", hex(table)),
                ("words", hex(words)),
                ("chart", hex_numbers(chart)),
                ("count and root", format!("{count} {root}")),
                ("numbers in the tree slice", length.to_string()),
            ]
        };
        let sides = (side(self.one), side(self.other));
        self.agreed("tree", input, sides)
    }

    /// The sentence writer on a slice of `length` numbers.
    pub fn sentence(&mut self, table: &[u8], tree: &[u16], length: usize) -> Agreed {
        let side = |calls: &dyn Calls| {
            let mut text = vec![LENT; length];
            let answer = calls.sentence(table, tree, &mut text);
            Side { answer, slice: text }
        };
        let input = || {
            vec![
                ("table", hex(table)),
                ("tree list", hex_numbers(tree)),
                ("numbers in the text slice", length.to_string()),
            ]
        };
        let sides = (side(self.one), side(self.other));
        self.agreed("sentence", input, sides)
    }

    fn agreed(
        &mut self,
        call: &'static str,
        input: impl Fn() -> Vec<(&'static str, String)>,
        (one, other): (Side, Side),
    ) -> Agreed {
        if one != other {
            return Err(Box::new(Mismatch { call, input: input(), one, other }));
        }
        *self.tally.entry((call, one.answer.code)).or_insert(0) += 1;
        Ok((one.answer, one.slice))
    }
}

/// What is lent to the tree writer for reading.
#[derive(Clone, Copy)]
pub struct Lent<'a> {
    pub table: &'a [u8],
    pub words: &'a [u8],
    pub chart: &'a [u16],
}
