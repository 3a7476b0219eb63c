//! Writing a picture as SVG: branches first, then the boxes over them.

use crate::colours::{colours, COLOURS};
use crate::layout::{Box, Branch, Layout, Point, MARK};
use crate::tree::Node;

/// A branch's line, and the white edge that shows where it passes over another.
pub const LINE: f64 = 2.4;
pub const EDGE: f64 = 6.0;

/// How round a branch turns.
const ROUND: f64 = 4.0;

/// The picture, with the words as they are written.
pub fn svg(layout: &Layout, words: &[String]) -> String {
    let colours: Vec<&str> = colours(layout).iter().map(|&colour| COLOURS[colour]).collect();
    let mut parts = vec![head(layout)];
    for branch in &layout.branches {
        parts.push(branch_line(branch, colours[branch.node]));
    }
    for (number, node) in layout.tree.nodes.iter().enumerate() {
        let place = layout.nodes[number];
        if node.is_empty() {
            parts.push(nothing(Point { x: place.middle.x, y: place.bottom() }, colours[number]));
        }
        parts.push(node_box(node, place, colours[number]));
    }
    for ((word, place), index) in words.iter().zip(&layout.words).zip(0..) {
        parts.push(word_box(word, *place, index));
    }
    parts.push("</svg>\n".to_string());
    parts.concat()
}

fn head(layout: &Layout) -> String {
    let (width, height) = (layout.width.ceil(), layout.height.ceil());
    format!(
        "<svg xmlns=\"http://www.w3.org/2000/svg\" width=\"{width}\" height=\"{height}\" \
         viewBox=\"0 0 {width} {height}\" \
         font-family=\"DejaVu Sans, Helvetica, Arial, sans-serif\" text-anchor=\"middle\">\n\
         <rect width=\"{width}\" height=\"{height}\" fill=\"#ffffff\"/>\n"
    )
}

/// A branch over its white edge.
fn branch_line(branch: &Branch, colour: &str) -> String {
    let path = rounded(&branch.points);
    let line = |colour: &str, width: f64| {
        format!("<path d=\"{path}\" fill=\"none\" stroke=\"{colour}\" stroke-width=\"{width}\"/>\n")
    };
    line("#ffffff", EDGE) + &line(colour, LINE)
}

/// A path through the points, with its corners rounded.
fn rounded(points: &[Point]) -> String {
    let mut path = format!("M {} {}", points[0].x, points[0].y);
    for corner in points.windows(3) {
        let (before, after) = (towards(corner[1], corner[0]), towards(corner[1], corner[2]));
        let Point { x, y } = corner[1];
        path += &format!(" L {} {} Q {x} {y} {} {}", before.x, before.y, after.x, after.y);
    }
    let last = points[points.len() - 1];
    path + &format!(" L {} {}", last.x, last.y)
}

/// The point at most as far from a corner as it is round, on the way to the next.
fn towards(corner: Point, next: Point) -> Point {
    let go = |from: f64, to: f64| from + (to - from).clamp(-ROUND, ROUND);
    Point { x: go(corner.x, next.x), y: go(corner.y, next.y) }
}

/// The mark of an empty phrase: a small circle that is struck through.
fn nothing(from: Point, colour: &str) -> String {
    let (x, y) = (from.x, from.y + MARK - 10.0);
    format!(
        "<g class=\"empty\" stroke=\"{colour}\" stroke-width=\"1.8\" fill=\"none\">\
         <path d=\"M {x} {} L {x} {}\" stroke-dasharray=\"3 3\"/>\
         <circle cx=\"{x}\" cy=\"{y}\" r=\"7\" fill=\"#ffffff\"/>\
         <path d=\"M {} {} L {} {}\"/></g>\n",
        from.y,
        y - 7.0,
        x - 7.5,
        y + 7.5,
        x + 7.5,
        y - 7.5,
    )
}

/// A node: its category above, its function number below.
fn node_box(node: &Node, place: Box, colour: &str) -> String {
    let Point { x, y } = place.middle;
    format!(
        "<g class=\"node\"><rect {} rx=\"9\" fill=\"#ffffff\" stroke=\"{colour}\" stroke-width=\"2.2\"/>\
         <text x=\"{x}\" y=\"{}\" font-size=\"15\" font-weight=\"bold\" fill=\"#111827\">A{}</text>\
         <text x=\"{x}\" y=\"{}\" font-size=\"11.5\" fill=\"#374151\">{}</text></g>\n",
        corners(place),
        y - 1.5,
        node.category,
        y + 13.5,
        node.function,
    )
}

/// A word, and below its box its index.
fn word_box(word: &str, place: Box, index: usize) -> String {
    let Point { x, y } = place.middle;
    format!(
        "<g class=\"word\"><rect {} rx=\"4\" fill=\"#f3f4f6\" stroke=\"#6b7280\" stroke-width=\"1.4\"/>\
         <text x=\"{x}\" y=\"{}\" font-size=\"15\" fill=\"#111827\">{}</text>\
         <text x=\"{x}\" y=\"{}\" font-size=\"10\" fill=\"#6b7280\">{index}</text></g>\n",
        corners(place),
        y + 5.5,
        escaped(word),
        place.bottom() + 14.0,
    )
}

fn corners(place: Box) -> String {
    format!(
        "x=\"{}\" y=\"{}\" width=\"{}\" height=\"{}\"",
        place.middle.x - place.across,
        place.middle.y - place.up,
        2.0 * place.across,
        2.0 * place.up
    )
}

/// A word may have any letters; these have a meaning in SVG.
fn escaped(word: &str) -> String {
    word.replace('&', "&amp;").replace('<', "&lt;").replace('>', "&gt;")
}
