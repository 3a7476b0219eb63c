//! Where everything stands. The root is at the top and each daughter one row
//! below its mother; the words stand in a row at the bottom. Slots say where a
//! thing stands across (`placing`), lanes at which height a branch turns aside
//! (`lanes`); here both become points.

use crate::lanes::{lanes, Lanes};
use crate::placing::{Lead, Placing, Target};
use crate::tree::Tree;

/// From one slot to the next, and from one lane to the next.
pub const SLOT: f64 = 12.0;
pub const LANE: f64 = 10.0;

/// From a row's boxes down to the first lane, and from the last lane down to the
/// next boxes.
const LEAD: f64 = 16.0;
const TAIL: f64 = 18.0;

/// What the mark of an empty leaf needs below its box.
pub const MARK: f64 = 32.0;

/// Half the height of a node's box, and of a word's.
const NODE_UP: f64 = 20.0;
const WORD_UP: f64 = 17.0;

/// Free space around the picture, and between two words' boxes.
const MARGIN: f64 = 30.0;

/// A word's box is at least so wide, and so wide for each letter.
const LEAST_WORD: f64 = 54.0;
const LETTER: f64 = 9.4;

/// A point of the picture.
#[derive(Clone, Copy, PartialEq, Debug)]
pub struct Point {
    pub x: f64,
    pub y: f64,
}

/// A box: its middle, and half its width and height.
#[derive(Clone, Copy, PartialEq, Debug)]
pub struct Box {
    pub middle: Point,
    pub across: f64,
    pub up: f64,
}

/// A branch of a node: down, aside, and down again to what it reaches.
#[derive(Clone, PartialEq, Debug)]
pub struct Branch {
    pub node: usize,
    pub points: Vec<Point>,
}

/// The picture: all boxes, all branches, and its size.
pub struct Layout<'a> {
    pub tree: &'a Tree,
    pub nodes: Vec<Box>,
    pub words: Vec<Box>,
    pub branches: Vec<Branch>,
    pub width: f64,
    pub height: f64,
}

/// Lays a tree out; `words` are the sentence's words as they are written.
pub fn layout<'a>(tree: &'a Tree, words: &[String]) -> Layout<'a> {
    let letters = words.iter().map(|word| word.chars().count()).max().unwrap_or(0);
    let word_width = LEAST_WORD.max(letters as f64 * LETTER + LEAD);
    let column = ((word_width + MARGIN) / SLOT).ceil() as i64;
    let placing = Placing::of(tree, column);
    let lanes = lanes(&placing);
    let rows = rows(tree, &lanes.in_band);
    Measured { placing, lanes, rows, word_across: word_width / 2.0 }.picture()
}

impl Box {
    pub fn bottom(&self) -> f64 {
        self.middle.y + self.up
    }
}

/// The heights of the rows.
struct Rows {
    middles: Vec<f64>,
    /// From a row's boxes down to its first lane.
    leads: Vec<f64>,
    words: f64,
    height: f64,
}

/// A row stands as far below the one above as the lanes between them need.
fn rows(tree: &Tree, lanes_in_band: &[usize]) -> Rows {
    let mut rows = Rows { middles: Vec::new(), leads: Vec::new(), words: 0.0, height: 0.0 };
    let mut top = MARGIN;
    for (depth, &lanes) in lanes_in_band.iter().enumerate() {
        let has_mark = tree.at_depth(depth).any(|number| tree.nodes[number].is_empty());
        let lead = LEAD + if has_mark { MARK } else { 0.0 };
        rows.middles.push(top + NODE_UP);
        rows.leads.push(lead);
        top += 2.0 * NODE_UP + lead + lanes as f64 * LANE + TAIL;
    }
    rows.words = top + WORD_UP;
    let words_and_indices = 2.0 * WORD_UP + LEAD;
    rows.height = top + MARGIN + if tree.words.is_empty() { -TAIL } else { words_and_indices };
    rows
}

/// All that is known in slots, lanes and heights.
struct Measured<'a> {
    placing: Placing<'a>,
    lanes: Lanes,
    rows: Rows,
    word_across: f64,
}

impl<'a> Measured<'a> {
    fn picture(self) -> Layout<'a> {
        let tree = self.placing.tree;
        let nodes: Vec<Box> = (0..tree.nodes.len()).map(|number| self.node(number)).collect();
        let words: Vec<Box> = (0..tree.words.len()).map(|word| self.word(word)).collect();
        let leads = self.placing.leads.iter().zip(&self.lanes.of_leads);
        let branches = leads.map(|(lead, &lane)| {
            let end = match lead.target {
                Target::Node(number) => nodes[number],
                Target::Word(word) => words[word],
            };
            self.branch(lead, lane, nodes[lead.node].bottom(), end)
        });
        let branches = branches.collect();
        let width = self.x(self.placing.edges().1) + self.side();
        Layout { tree, nodes, words, branches, width, height: self.rows.height }
    }

    fn side(&self) -> f64 {
        MARGIN + self.word_across
    }

    fn x(&self, slot: i64) -> f64 {
        (slot - self.placing.edges().0) as f64 * SLOT + self.side()
    }

    fn node(&self, number: usize) -> Box {
        let y = self.rows.middles[self.placing.tree.nodes[number].depth];
        Box {
            middle: Point { x: self.x(self.placing.middles[number]), y },
            across: self.placing.halves[number] as f64 * SLOT + SLOT / 2.0,
            up: NODE_UP,
        }
    }

    fn word(&self, word: usize) -> Box {
        let middle = Point { x: self.x(self.placing.columns[word]), y: self.rows.words };
        Box { middle, across: self.word_across, up: WORD_UP }
    }

    /// Down, aside in its lane, and down again; straight, if nothing is aside.
    fn branch(&self, lead: &Lead, lane: usize, top: f64, end: Box) -> Branch {
        let (from, to) = (self.x(lead.port), end.middle.x);
        let row = self.placing.tree.nodes[lead.node].depth;
        let turn = top + self.rows.leads[row] + lane as f64 * LANE;
        let corners = [(from, top), (from, turn), (to, turn), (to, end.middle.y - end.up)];
        let points = corners.map(|(x, y)| Point { x, y });
        let points = if from == to { vec![points[0], points[3]] } else { points.to_vec() };
        Branch { node: lead.node, points }
    }
}
