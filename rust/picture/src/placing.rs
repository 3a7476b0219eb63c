//! Where everything stands across, in slots. The words stand in columns; each
//! node stands over the middle of its words. All that stands upright, a column
//! over a word or the branch into a node, has a slot of its own wherever two
//! could meet.

use crate::ports::{half_width, ports};
use crate::tree::{Node, Tree};

/// What a branch reaches.
#[derive(Clone, Copy, PartialEq, Eq, Debug)]
pub enum Target {
    Node(usize),
    Word(usize),
}

/// A branch: whose it is, what it reaches, and the slot where it leaves its node.
pub struct Lead {
    pub node: usize,
    pub target: Target,
    pub port: i64,
}

/// A tree in slots: its words' columns, the middles of its nodes and half their
/// widths, and all branches.
pub struct Placing<'a> {
    pub tree: &'a Tree,
    pub columns: Vec<i64>,
    pub middles: Vec<i64>,
    pub halves: Vec<i64>,
    pub leads: Vec<Lead>,
}

/// A branch into the node's row is straight, if that moves the node so little.
const MOVED: i64 = 3;

impl<'a> Placing<'a> {
    /// Places a tree, row by row; the columns stand so many slots apart.
    pub fn of(tree: &'a Tree, column: i64) -> Placing<'a> {
        let branches = tree.nodes.iter().map(Node::branches);
        let mut placing = Placing {
            tree,
            columns: (0..tree.words.len() as i64).map(|index| index * column).collect(),
            middles: vec![0; tree.nodes.len()],
            halves: branches.map(|number| half_width(number, column)).collect(),
            leads: Vec::new(),
        };
        for depth in 0..=tree.deepest() {
            placing.place_row(depth);
            placing.lead_out(depth);
        }
        placing
    }

    /// Places the nodes of one depth, from the left.
    fn place_row(&mut self, depth: usize) {
        let mut row: Vec<(i64, usize)> =
            self.tree.at_depth(depth).map(|number| (self.wished(number), number)).collect();
        row.sort();
        let passing = self.passing(depth);
        let mut placed = Vec::new();
        for (wished, number) in row {
            let is_free = |middle: i64| {
                let half = self.halves[number];
                passing.iter().all(|column| (column - middle).abs() > half)
                    && placed.iter().all(|&other| self.is_beside(other, middle, half))
                    && self.leads.iter().all(|lead| !self.is_in_the_way(lead, number, middle))
            };
            let own = self.leads.iter().find(|lead| lead.target == Target::Node(number));
            let straight = own.map(|lead| lead.port).filter(|port| (port - wished).abs() <= MOVED);
            self.middles[number] = nearest_free(straight.unwrap_or(wished), is_free);
            placed.push(number);
        }
    }

    /// Over the middle of all its words; without words, under its mother.
    pub fn wished(&self, number: usize) -> i64 {
        let words = self.tree.all_words(number);
        if !words.is_empty() {
            let sum: i64 = words.iter().map(|&word| self.columns[word]).sum();
            return sum / words.len() as i64;
        }
        self.tree.nodes[number].parent.map_or(0, |parent| self.middles[parent])
    }

    /// The columns of words that belong to nodes above this depth.
    fn passing(&self, depth: usize) -> Vec<i64> {
        let above = self.tree.nodes.iter().filter(|node| node.depth < depth);
        above.flat_map(|node| &node.words).map(|&word| self.columns[word]).collect()
    }

    /// Whether a box stands free of another node's box in its row.
    fn is_beside(&self, other: usize, middle: i64, half: i64) -> bool {
        (self.middles[other] - middle).abs() >= half + self.halves[other] + 2
    }

    /// Whether another branch from the row above falls where this node's would.
    fn is_in_the_way(&self, lead: &Lead, number: usize, middle: i64) -> bool {
        let nodes = &self.tree.nodes;
        lead.port == middle
            && lead.target != Target::Node(number)
            && nodes[lead.node].depth + 1 == nodes[number].depth
    }

    /// Gives each branch of this depth's nodes its port.
    fn lead_out(&mut self, depth: usize) {
        for number in self.tree.at_depth(depth) {
            let leads = ports(self, number);
            self.leads.extend(leads);
        }
    }

    /// Where a branch arrives.
    pub fn arrival(&self, lead: &Lead) -> i64 {
        match lead.target {
            Target::Node(number) => self.middles[number],
            Target::Word(word) => self.columns[word],
        }
    }

    /// The outermost slots that something stands on.
    pub fn edges(&self) -> (i64, i64) {
        let boxes = self.middles.iter().zip(&self.halves).flat_map(|(m, h)| [m - h, m + h]);
        let all: Vec<i64> = boxes.chain(self.columns.iter().copied()).collect();
        let least = all.iter().min().expect("a tree has a node");
        (*least, *all.iter().max().expect("a tree has a node"))
    }
}

/// The free slot nearest to the wished one; of two, the right one.
fn nearest_free(wished: i64, is_free: impl Fn(i64) -> bool) -> i64 {
    let mut places = (0..).flat_map(|step| [wished + step, wished - step]);
    places.find(|&place| is_free(place)).expect("there is always room further out")
}
