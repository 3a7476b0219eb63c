//! The colour of each node and of its branches: never that of its mother, and,
//! as far as the colours go, never that of a node whose branches cross its own.

use crate::layout::{Layout, Point};

/// Colours that differ clearly from each other and from the white ground.
pub const COLOURS: [&str; 7] =
    ["#0b4fb0", "#d4351c", "#128a3c", "#9b30e8", "#e69a00", "#12b5cb", "#4a3020"];

/// The number of each node's colour among the colours.
pub fn colours(layout: &Layout) -> Vec<usize> {
    let crossing = crossing(layout);
    let mut colours: Vec<usize> = Vec::new();
    for (number, node) in layout.tree.nodes.iter().enumerate() {
        let mother = node.parent.map(|parent| colours[parent]);
        let cost = |colour: usize| {
            let others = colours.iter().enumerate().filter(|&(_, &other)| other == colour);
            let crossed = others.filter(|&(other, _)| crossing[number].contains(&other)).count();
            let turn = (colour + COLOURS.len() - number % COLOURS.len()) % COLOURS.len();
            (mother == Some(colour), crossed, turn)
        };
        let best = (0..COLOURS.len()).min_by_key(|&colour| cost(colour));
        colours.push(best.expect("there are colours"));
    }
    colours
}

/// For each node, the nodes whose branches cross its own.
pub fn crossing(layout: &Layout) -> Vec<Vec<usize>> {
    let mut crossing = vec![Vec::new(); layout.nodes.len()];
    for one in &layout.branches {
        for other in &layout.branches {
            if one.node != other.node && cross(&one.points, &other.points) {
                crossing[one.node].push(other.node);
            }
        }
    }
    crossing
}

fn cross(one: &[Point], other: &[Point]) -> bool {
    one.windows(2).any(|a| other.windows(2).any(|b| meet(a, b)))
}

/// Whether two pieces, each upright or level, have a point in common.
fn meet(a: &[Point], b: &[Point]) -> bool {
    let within = |at: fn(&Point) -> f64| {
        let (low, high) = (at(&a[0]).min(at(&a[1])), at(&a[0]).max(at(&a[1])));
        let (other_low, other_high) = (at(&b[0]).min(at(&b[1])), at(&b[0]).max(at(&b[1])));
        low <= other_high && other_low <= high
    };
    within(|point| point.x) && within(|point| point.y)
}
