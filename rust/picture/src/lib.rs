//! Draws the tree of a chart's record as an SVG picture: the words in their
//! order at the bottom, the nodes above, each with its category and function
//! number. Branches to parts that stand apart cross as they are.
//!
//! One file holds one topic: `tree` (what is drawn), `placing` (where it stands
//! across), `ports` and `lanes` (where branches leave their node and turn aside),
//! `layout` (all as points), `colours`, `svg` (how it is written), `names` (the
//! words file beside a table), `outline` (the tree as lines of text).

pub mod colours;
mod lanes;
pub mod layout;
pub mod names;
pub mod outline;
mod placing;
mod ports;
pub mod svg;
pub mod tree;

use names::Names;
use tree::Tree;

/// The picture of a tree, as SVG; words stand as they are named.
pub fn draw(tree: &Tree, names: &Names) -> String {
    let words: Vec<String> = tree.words.iter().map(|&word| names.word(word)).collect();
    svg::svg(&layout::layout(tree, &words), &words)
}
