//! The sentences whose pictures the tests look at.

use picture::tree::{tree, Tree};
use tables::worked::{ABC, AMB, COPY, FIGURE_3_1, VERB};

/// A chain: each level has a word at both ends.
pub const CHAIN: &str = "
    start A1
    1
    1 A1(7 X1.1 8) -> A1(X1.1)
    2 A1(5) ->
";

/// One rule that says 48 words, those of its three rows in turn crossed by the
/// other's.
pub const WIDE: &str = "
    start A1
    1 3
    1 A1(X2.1 X1.1 X2.2 X1.2 X2.3 X1.3) -> A2(X1.1, X1.2, X1.3) A2(X2.1, X2.2, X2.3)
    2 A2(1 1 1 1 1 1 1 1, 2 2 2 2 2 2 2 2, 3 3 3 3 3 3 3 3) ->
";

/// Sixteen levels of the chain.
const SIXTEEN: [u16; 31] =
    [7, 7, 7, 7, 7, 7, 7, 7, 7, 7, 7, 7, 7, 7, 7, 5, 8, 8, 8, 8, 8, 8, 8, 8, 8, 8, 8, 8, 8, 8, 8];

/// Two of the wide rule's words.
const FORTY_EIGHT: [u16; 48] = [
    1, 1, 1, 1, 1, 1, 1, 1, 1, 1, 1, 1, 1, 1, 1, 1, 2, 2, 2, 2, 2, 2, 2, 2, 2, 2, 2, 2, 2, 2, 2, 2,
    3, 3, 3, 3, 3, 3, 3, 3, 3, 3, 3, 3, 3, 3, 3, 3,
];

pub const EXAMPLES: [(&str, &[u16]); 12] = [
    (COPY, &[7, 7, 7, 7]),
    (COPY, &[7, 8, 8, 7, 8, 8]),
    (COPY, &[7; 10]),
    (COPY, &[]),
    (AMB, &[9; 9]),
    (AMB, &[9; 62]),
    (ABC, &[1, 1, 1, 2, 2, 2, 3, 3, 3]),
    (FIGURE_3_1, &[1, 2, 2, 1, 3, 4, 4, 3]),
    (VERB, &[1, 3, 7, 8, 4]),
    (VERB, &[1, 3, 4, 7, 8]),
    (CHAIN, &SIXTEEN),
    (WIDE, &FORTY_EIGHT),
];

/// The tree of the sentence.
pub fn goal_tree(text: &str, sentence: &[u16]) -> Tree {
    let (table, words) = (tables::table(text), tables::words(sentence));
    let mut chart = vec![0; 24_000];
    let answer = reference::read(&table, &words, 0, &mut chart);
    assert_eq!(answer.code, 0);
    let (count, goal) = (answer.count as usize, answer.place as usize);
    tree(&table, &words, &chart, count, goal).expect("there is a tree")
}
