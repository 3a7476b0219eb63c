//! Where the branches of a node leave it: each from a slot of its own under the
//! node's box, in the order of what they reach, and never from a column that
//! another branch of the same row falls down.

use crate::placing::{Lead, Placing, Target};

/// A node's box reaches at least so many slots to each side of its middle.
const LEAST_HALF: i64 = 2;

/// Half the width of a box with so many branches, in slots: wide enough even
/// where columns of others take some of its slots.
pub fn half_width(branches: usize, column: i64) -> i64 {
    let is_enough = |half: &i64| 2 * half + 1 - (2 * half / column + 1) >= branches as i64;
    (LEAST_HALF..).find(is_enough).expect("a wider box has more slots")
}

/// The branches of a node, each with its port.
pub fn ports(placing: &Placing, number: usize) -> Vec<Lead> {
    let node = &placing.tree.nodes[number];
    let daughters = node.daughters.iter().map(|&daughter| Target::Node(daughter));
    let words = node.words.iter().map(|&word| Target::Word(word));
    let mut wishes: Vec<(i64, Target)> =
        daughters.chain(words).map(|target| (wish(placing, target), target)).collect();
    wishes.sort_by_key(|&(wish, _)| wish);
    let taken = columns_of_row(placing, node.depth);
    let slots = slots(placing.middles[number], placing.halves[number], &wishes, &taken);
    let leads = wishes.iter().zip(slots);
    leads.map(|(&(_, target), port)| Lead { node: number, target, port }).collect()
}

fn wish(placing: &Placing, target: Target) -> i64 {
    match target {
        Target::Node(daughter) => placing.wished(daughter),
        Target::Word(word) => placing.columns[word],
    }
}

/// The columns that branches of this row fall down.
fn columns_of_row(placing: &Placing, depth: usize) -> Vec<i64> {
    let row = placing.tree.at_depth(depth);
    let words = row.flat_map(|number| &placing.tree.nodes[number].words);
    words.map(|&word| placing.columns[word]).collect()
}

/// Rising slots of the box, one for each wish, that are together nearest to the
/// wishes. A taken column is only for the branch that falls down it.
fn slots(middle: i64, half: i64, wishes: &[(i64, Target)], taken: &[i64]) -> Vec<i64> {
    const NEVER: i64 = i64::MAX / 4;
    let (left, width) = (middle - half, (2 * half + 1) as usize);
    // best[k][s]: the least cost of the first k wishes in the first s slots.
    let mut best = vec![vec![0; width + 1]];
    for &(wish, target) in wishes {
        let before = best.last().expect("there is a first row");
        let mut row = vec![NEVER; width + 1];
        for s in 0..width {
            let slot = left + s as i64;
            let own = matches!(target, Target::Word(_)) && slot == wish;
            let is_free = own || !taken.contains(&slot);
            let here = if is_free { before[s] + (slot - wish).abs() } else { NEVER };
            row[s + 1] = row[s].min(here);
        }
        best.push(row);
    }
    let mut chosen = Vec::new();
    let mut s = width;
    for k in (1..=wishes.len()).rev() {
        while best[k][s] == best[k][s - 1] {
            s -= 1;
        }
        s -= 1;
        chosen.push(left + s as i64);
    }
    chosen.reverse();
    chosen
}
