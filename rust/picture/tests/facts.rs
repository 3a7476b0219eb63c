//! The drawing's facts: what is near to what, and in which colours. No test
//! looks at the picture's bytes.

use picture::colours::{colours, crossing, COLOURS};
use picture::layout::{layout, Box, Branch, Layout, Point, LANE, MARK, SLOT};
use picture::svg::{EDGE, LINE};
use picture::tree::Tree;
use std::sync::OnceLock;
use tables::worked::{COPY, FIGURE_3_1, VERB};

mod examples;
use examples::{goal_tree, CHAIN, EXAMPLES};

/// Nothing is nearer to a branch than its white edge and the other's line reach.
const APART: f64 = EDGE / 2.0 + LINE / 2.0;

/// The examples' trees, each read once.
fn trees() -> &'static [Tree] {
    static TREES: OnceLock<Vec<Tree>> = OnceLock::new();
    let read = || EXAMPLES.map(|(text, sentence)| goal_tree(text, sentence)).to_vec();
    TREES.get_or_init(read)
}

/// Each example, with short words and with long ones.
fn each_layout(test: impl Fn(&Layout)) {
    for tree in trees() {
        for letters in [1, 12] {
            let words: Vec<String> = tree.words.iter().map(|_| "m".repeat(letters)).collect();
            test(&layout(tree, &words));
        }
    }
}

fn with_layout(text: &str, sentence: &[u16], test: impl Fn(&Layout)) {
    let tree = goal_tree(text, sentence);
    let words: Vec<String> = sentence.iter().map(u16::to_string).collect();
    test(&layout(&tree, &words));
}

/// How far two upright or level pieces are apart: across, and up.
fn gaps(a: &[Point], b: &[Point]) -> (f64, f64) {
    let gap = |at: fn(&Point) -> f64| {
        let (low, high) = (at(&a[0]).min(at(&a[1])), at(&a[0]).max(at(&a[1])));
        let (other_low, other_high) = (at(&b[0]).min(at(&b[1])), at(&b[0]).max(at(&b[1])));
        (other_low - high).max(low - other_high)
    };
    (gap(|point| point.x), gap(|point| point.y))
}

fn is_upright(piece: &[Point]) -> bool {
    piece[0].x == piece[1].x
}

/// All pairs of pieces of different branches.
fn each_pair(branches: &[Branch], test: impl Fn(&[Point], &[Point])) {
    for (number, one) in branches.iter().enumerate() {
        for other in &branches[number + 1..] {
            for a in one.points.windows(2) {
                other.points.windows(2).for_each(|b| test(a, b));
            }
        }
    }
}

#[test]
fn no_branch_runs_along_another_nearer_than_its_white_edge_reaches() {
    assert!(LANE > APART && SLOT > APART);
    each_layout(|layout| {
        each_pair(&layout.branches, |a, b| {
            if is_upright(a) == is_upright(b) {
                let (across, up) = gaps(a, b);
                assert!(across > APART || up > APART, "{a:?} {b:?}");
            }
        });
    });
}

#[test]
fn where_two_branches_meet_they_cross_and_neither_turns() {
    each_layout(|layout| {
        each_pair(&layout.branches, |a, b| {
            let (across, up) = gaps(a, b);
            // Crossing pieces reach into each other by more than an edge.
            let apart = across > APART || up > APART;
            assert!(apart || (across <= -0.0 && up <= -0.0), "{a:?} {b:?}");
            for corner in a.iter().filter(|_| !apart) {
                let (across, up) = gaps(&[*corner, *corner], b);
                assert!(across > APART || up > APART, "{a:?} {b:?}");
            }
        });
    });
}

#[test]
fn no_branch_passes_through_a_box() {
    each_layout(|layout| {
        for branch in &layout.branches {
            let (first, last) = (branch.points[0], branch.points[branch.points.len() - 1]);
            for place in layout.nodes.iter().chain(&layout.words) {
                let is_end = touches(place, first) || touches(place, last);
                for piece in branch.points.windows(2).filter(|_| !is_end) {
                    let (across, up) = gaps(piece, &corners(place));
                    assert!(across >= EDGE / 2.0 || up >= EDGE / 2.0, "{piece:?} {place:?}");
                }
            }
        }
    });
}

fn corners(place: &Box) -> [Point; 2] {
    let Point { x, y } = place.middle;
    [Point { x: x - place.across, y: y - place.up }, Point { x: x + place.across, y: y + place.up }]
}

/// Whether a point stands on the upper or the lower side of a box.
fn touches(place: &Box, point: Point) -> bool {
    let is_beside = (place.middle.x - point.x).abs() < place.across;
    is_beside && (place.middle.y - point.y).abs() == place.up
}

#[test]
fn every_branch_goes_from_its_node_to_what_it_reaches() {
    each_layout(|layout| {
        let ends: usize = layout.tree.nodes.iter().map(|node| node.branches()).sum();
        assert_eq!(layout.branches.len(), ends);
        for branch in &layout.branches {
            assert!(touches(&layout.nodes[branch.node], branch.points[0]));
            let end = branch.points[branch.points.len() - 1];
            let node = &layout.tree.nodes[branch.node];
            let daughters = node.daughters.iter().map(|&daughter| layout.nodes[daughter]);
            let mut reached = daughters.chain(node.words.iter().map(|&word| layout.words[word]));
            assert!(reached.any(|place| place.middle.x == end.x && touches(&place, end)));
        }
    });
}

#[test]
fn two_branches_of_one_mother_share_no_line() {
    with_layout(COPY, &[7; 10], |layout| {
        for number in 0..layout.nodes.len() {
            let own: Vec<Branch> =
                layout.branches.iter().filter(|branch| branch.node == number).cloned().collect();
            each_pair(&own, |a, b| {
                let (across, up) = gaps(a, b);
                assert!(across > APART || up > APART, "{a:?} {b:?}");
            });
        }
    });
}

#[test]
fn no_two_boxes_touch() {
    each_layout(|layout| {
        let boxes: Vec<Box> = layout.nodes.iter().chain(&layout.words).copied().collect();
        for (number, one) in boxes.iter().enumerate() {
            for other in &boxes[number + 1..] {
                let (across, up) = gaps(&corners(one), &corners(other));
                assert!(across >= SLOT || up >= SLOT, "{one:?} {other:?}");
            }
        }
    });
}

#[test]
fn words_stand_in_their_order_below_all_nodes_and_inside_the_picture() {
    each_layout(|layout| {
        assert!(layout.words.windows(2).all(|pair| pair[0].middle.x < pair[1].middle.x));
        for word in &layout.words {
            assert!(layout.nodes.iter().all(|node| node.bottom() < word.middle.y - word.up));
        }
        for place in layout.nodes.iter().chain(&layout.words) {
            let [low, high] = corners(place);
            assert!(low.x > 0.0 && low.y > 0.0 && high.x < layout.width && high.y < layout.height);
        }
    });
}

#[test]
fn a_word_fits_into_its_box() {
    with_layout(VERB, &[1, 3, 7, 8, 4], |narrow| {
        let words = ["vaccination", "we", "the", "child", "up"].map(str::to_string);
        let wide = layout(narrow.tree, &words);
        assert!(wide.words[0].across > narrow.words[0].across);
        assert!(2.0 * wide.words[0].across > 11.0 * 9.0);
    });
}

#[test]
fn an_empty_sentence_has_no_blank_half() {
    with_layout(COPY, &[], |layout| {
        let lowest = layout.nodes.iter().map(|node| node.bottom() + MARK).fold(0.0, f64::max);
        assert!(lowest < layout.height && layout.height - lowest < 60.0);
    });
}

/// Red, green and blue of a colour, 0 to 255.
fn parts(colour: &str) -> [f64; 3] {
    [1, 3, 5].map(|at| u8::from_str_radix(&colour[at..at + 2], 16).expect("a colour") as f64)
}

/// How far two colours are apart, weighted as the eye does (0 to about 765).
fn difference(one: &str, other: &str) -> f64 {
    let ([r, g, b], [other_r, other_g, other_b]) = (parts(one), parts(other));
    let mean = (r + other_r) / 2.0 / 256.0;
    let weights = [2.0 + mean, 4.0, 3.0 - mean];
    let squares = [r - other_r, g - other_g, b - other_b].map(|d| d * d);
    weights.iter().zip(squares).map(|(weight, square)| weight * square).sum::<f64>().sqrt()
}

#[test]
fn the_colours_differ_clearly() {
    for (number, one) in COLOURS.iter().enumerate() {
        assert!(difference(one, "#ffffff") > 250.0, "{one} on white");
        for other in &COLOURS[number + 1..] {
            assert!(difference(one, other) > 200.0, "{one} {other} {}", difference(one, other));
        }
    }
    let old = ("#c2410c", "#b45309");
    assert!(difference(old.0, old.1) < 60.0, "two colours that were nearly the same");
}

#[test]
fn mother_and_daughter_never_have_one_colour() {
    each_layout(|layout| {
        let colours = colours(layout);
        for (node, colour) in layout.tree.nodes.iter().zip(&colours) {
            assert!(node.parent.is_none_or(|parent| colours[parent] != *colour));
        }
    });
}

#[test]
fn branches_that_cross_have_different_colours() {
    each_layout(|layout| {
        let colours = colours(layout);
        for (number, others) in crossing(layout).iter().enumerate() {
            for &other in others {
                assert_ne!(colours[number], colours[other], "nodes {number} and {other}");
            }
        }
    });
}

#[test]
fn what_is_apart_crosses_and_what_is_nested_does_not() {
    with_layout(FIGURE_3_1, &[1, 2, 2, 1, 3, 4, 4, 3], |layout| {
        assert!(crossing(layout).iter().any(|others| !others.is_empty()));
    });
    with_layout(CHAIN, &[7, 7, 5, 8, 8], |layout| {
        assert!(crossing(layout).iter().all(|others| others.is_empty()));
    });
}
