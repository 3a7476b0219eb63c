//! The sentence writer: the examples of READINGS.md, "Sentence writer", and one
//! case for each way to be wrong.

mod common;
use common::*;

fn answer_for(table: &[u8], tree: &[u16]) -> [u64; 3] {
    let (answer, text) = sentence_into(table, tree, 40);
    if answer[0] != 0 {
        assert_eq!(text, [LENT; 40]);
    }
    answer
}

#[test]
fn writes_the_words_and_leaves_the_rest() {
    let (answer, text) = sentence_into(&copy(), &[10, 21, 22, 20], 6);
    assert_eq!((answer, text), ([0, 0, 4], vec![7, 8, 7, 8, LENT, LENT]));
    let (answer, text) = sentence_into(&copy(), &[10, 20], 2);
    assert_eq!((answer, text), ([0, 0, 0], vec![LENT; 2]));
}

#[test]
fn the_first_wrong_node_from_the_left() {
    assert_eq!(answer_for(&amb(), &[2, 2, 99]), [20, 1, 0], "a node too many");
    assert_eq!(answer_for(&amb(), &[1, 99, 99]), [20, 1, 0], "unknown");
    assert_eq!(answer_for(&amb(), &[1, 2, 99]), [20, 2, 0], "unknown");
    assert_eq!(answer_for(&amb(), &[0]), [20, 0, 0], "no function is 0");
    assert_eq!(answer_for(&copy(), &[20]), [20, 0, 0], "the root wants the start");
    assert_eq!(answer_for(&copy(), &[10, 21, 10]), [20, 2, 0], "not wanted there");
    assert_eq!(answer_for(&copy(), &[10, 21]), [20, 2, 0], "an early end");
    assert_eq!(answer_for(&copy(), &[]), [20, 0, 0], "an empty list");
}

#[test]
fn more_than_255_nodes() {
    assert_eq!(answer_for(&amb(), &[99; 256]), [20, 255, 0]);
    assert_eq!(answer_for(&amb(), &[99; 255]), [20, 0, 0]);
    assert_eq!(answer_for(&copy()[..3], &[99; 256]), [2, 3, 0]);
}

#[test]
fn a_list_of_255_nodes_is_taken() {
    let tree = [[1; 127].as_slice(), &[2; 128]].concat();
    let (answer, text) = sentence_into(&amb(), &tree, 129);
    assert_eq!(answer, [0, 0, 128]);
    assert_eq!(text, [[9; 128].as_slice(), &[LENT]].concat());
}

#[test]
fn text_room_knows_no_limit_of_64_words() {
    let tree = [[1; 127].as_slice(), &[2; 128]].concat();
    let (answer, text) = sentence_into(&amb(), &tree, 127);
    assert_eq!((answer, text), ([21, 128, 0], vec![LENT; 127]));
    assert_eq!(sentence_into(&amb(), &[2], 0).0, [21, 1, 0]);
    assert_eq!(sentence_into(&copy(), &[10, 20], 0).0, [0, 0, 0]);
}

#[test]
fn crossed_parts_are_spelled_in_their_rows() {
    let table = tables::table(
        "start A1
         1 2
         1 A1(X1.2 5 X1.1) -> A2(X1.1, X1.2)
         2 A2(X2.2 X1.1, X1.2 X2.1) -> A2(X1.1, X1.2) A2(X2.1, X2.2)
         3 A2(7, 8) ->
         4 A2(, 9) ->",
    );
    let (answer, text) = sentence_into(&table, &[1, 2, 3, 4], 5);
    assert_eq!((answer, text), ([0, 0, 4], vec![8, 5, 9, 7, LENT]));
}
