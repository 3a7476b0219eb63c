//! The tree as lines of text: each node under its mother, with its category, its
//! function number and the words that its own rule says.

use crate::names::Names;
use crate::tree::{Node, Tree};

/// The sentence in words.
pub fn sentence(words: &[u16], names: &Names) -> String {
    if words.is_empty() {
        return "(no words)".to_string();
    }
    let words: Vec<String> = words.iter().map(|&word| names.word(word)).collect();
    words.join(" ")
}

/// A line for each node, daughters further in.
pub fn outline(tree: &Tree, names: &Names) -> String {
    tree.nodes.iter().map(|node| line(tree, node, names)).collect()
}

fn line(tree: &Tree, node: &Node, names: &Names) -> String {
    let indent = "  ".repeat(node.depth + 1);
    let said = own_words(tree, node, names);
    let colon = if said.is_empty() { "" } else { ": " };
    format!("{indent}A{} by {}{colon}{said}\n", node.category, node.function)
}

/// The node's own words in the sentence's order, with dots where others stand
/// between them.
fn own_words(tree: &Tree, node: &Node, names: &Names) -> String {
    let mut indices = node.words.clone();
    indices.sort();
    let mut said: Vec<String> = Vec::new();
    for (number, &index) in indices.iter().enumerate() {
        if number > 0 && indices[number - 1] + 1 != index {
            said.push("..".to_string());
        }
        said.push(names.word(tree.words[index]));
    }
    said.join(" ")
}
