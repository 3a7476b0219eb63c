//! The tree that is drawn: nodes with their own words and their daughters.

use reference::chart::Record;
use reference::chart_check;
use reference::table::{Rule, Symbol, Table};
use reference::table_check;
use reference::tree::MOST_NODES;
use reference::words;

/// A tree over a sentence. Each node stands before its daughters.
#[derive(Clone, PartialEq, Eq, Debug)]
pub struct Tree {
    pub words: Vec<u16>,
    pub nodes: Vec<Node>,
}

/// A node: what it is, how deep it stands, the sentence's words that its own
/// rule says, and the numbers of its daughters among the nodes.
#[derive(Clone, PartialEq, Eq, Debug)]
pub struct Node {
    pub category: u16,
    pub function: u16,
    pub depth: usize,
    pub parent: Option<usize>,
    pub words: Vec<usize>,
    pub daughters: Vec<usize>,
}

impl Tree {
    /// The depth of the lowest nodes.
    pub fn deepest(&self) -> usize {
        self.nodes.iter().map(|node| node.depth).max().unwrap_or(0)
    }

    /// The numbers of the nodes at a depth.
    pub fn at_depth(&self, depth: usize) -> impl Iterator<Item = usize> + '_ {
        (0..self.nodes.len()).filter(move |&number| self.nodes[number].depth == depth)
    }

    /// The words of a node and of all nodes below it.
    pub fn all_words(&self, number: usize) -> Vec<usize> {
        let node = &self.nodes[number];
        let below = node.daughters.iter().flat_map(|&daughter| self.all_words(daughter));
        node.words.iter().copied().chain(below).collect()
    }
}

impl Node {
    /// How many branches leave this node.
    pub fn branches(&self) -> usize {
        self.words.len() + self.daughters.len()
    }

    /// Whether this is a leaf without words.
    pub fn is_empty(&self) -> bool {
        self.branches() == 0
    }
}

/// The tree of the record at `root`, if the chart passes and it isn't too large.
pub fn tree(table: &[u8], words: &[u8], chart: &[u16], count: usize, root: usize) -> Option<Tree> {
    let table = table_check::check(table).ok()?;
    let words = words::check(words).ok()?;
    let records = chart_check::check(&table, &words, chart, count).ok()?;
    let mut growing = Growing { table: &table, records: &records, nodes: Vec::new() };
    growing.add(root, None)?;
    Some(Tree { words, nodes: growing.nodes })
}

struct Growing<'a> {
    table: &'a Table,
    records: &'a [Record],
    nodes: Vec<Node>,
}

impl Growing<'_> {
    /// Adds the node of a record and all below it; answers the node's number.
    fn add(&mut self, place: usize, parent: Option<usize>) -> Option<usize> {
        let record = self.records.get(place)?;
        let rule = self.table.rule(record.function)?;
        let number = self.nodes.len();
        if number == MOST_NODES {
            return None;
        }
        let places = &record.daughters[..rule.rank()];
        let below: Vec<Record> = places.iter().map(|&place| self.records[place as usize]).collect();
        self.nodes.push(Node {
            category: record.item.category,
            function: record.function,
            depth: parent.map_or(0, |parent| self.nodes[parent].depth + 1),
            parent,
            words: own_words(rule, record, &below),
            daughters: Vec::new(),
        });
        for &daughter in places {
            let daughter = self.add(daughter as usize, Some(number))?;
            self.nodes[number].daughters.push(daughter);
        }
        Some(number)
    }
}

/// The indices of the words that stand in the rule's own rows.
fn own_words(rule: &Rule, record: &Record, daughters: &[Record]) -> Vec<usize> {
    let mut words = Vec::new();
    for (row, range) in rule.rows.iter().zip(record.item.ranges) {
        let mut at = range.start as usize;
        for symbol in row {
            if let Symbol::Part { daughter, constituent } = *symbol {
                let part = daughters[daughter].item.ranges[constituent];
                at = if part.is_empty() { at } else { part.end as usize };
            } else {
                words.push(at);
                at += 1;
            }
        }
    }
    words
}
