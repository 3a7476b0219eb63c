//! The reader's charts: the examples of READINGS.md, "Items and chart", and the
//! chosen derivation.

mod common;
use common::*;
use tables::table;

fn record(chart: &[u16], place: usize) -> &[u16] {
    &chart[place * 12..(place + 1) * 12]
}

#[test]
fn the_least_function_number_wherever_the_rule_stands() {
    let rules = ["300 A1(7) ->", "5 A1(7) ->", "40 A1(7) ->"];
    for turn in 0..3 {
        let lines = [rules[turn], rules[(turn + 1) % 3], rules[(turn + 2) % 3]].join("\n");
        let read = reading(&table(&format!("start A1\n1\n{lines}")), &[7]);
        assert_eq!(read.answer, [0, 0, 1]);
        assert_eq!(record(&read.chart, 0), [1, 5, 1, 0, 1, 0, 0, 0, 0, 0, 0, 0]);
    }
}

#[test]
fn a_lower_height_goes_before_a_lesser_function() {
    let table = table("start A1\n1 1\n1 A1(X1.1) -> A2(X1.1)\n2 A2(7) ->\n3 A1(7) ->");
    let read = reading(&table, &[7]);
    assert_eq!(record(&read.chart, 0), [1, 3, 1, 0, 1, 0, 0, 0, 0, 0, 0, 0]);
}

#[test]
fn the_first_sequence_of_daughters_by_their_places() {
    // The goal of 9 9 9 could also be made from places 1 and 5.
    let chart = reading(&amb(), &[9; 3]).chart;
    assert_eq!(record(&chart, 2), [1, 1, 3, 0, 3, 0, 0, 0, 0, 0, 4, 0]);
}

#[test]
fn a_row_of_words_alone_has_a_range_for_every_occurrence() {
    let table = table("start A1\n1 2\n1 A1(X1.1 X1.2) -> A2(X1.1, X1.2)\n2 A2(7, 8) ->");
    let read = reading(&table, &[7, 8, 7]);
    assert_eq!(read.answer, [1, 0, 3]);
    assert_eq!(record(&read.chart, 0), [1, 1, 2, 0, 2, 0, 0, 0, 0, 1, 0, 0]);
    assert_eq!(record(&read.chart, 1), [2, 2, 1, 0, 1, 1, 2, 0, 0, 0, 0, 0]);
    assert_eq!(record(&read.chart, 2), [2, 2, 1, 2, 3, 1, 2, 0, 0, 0, 0, 0]);
}

#[test]
fn words_and_empty_parts_have_a_range_for_every_occurrence() {
    let table = table("start A1\n1 1\n1 A1(7 X1.1) -> A2(X1.1)\n2 A2() ->");
    let read = reading(&table, &[7, 8, 7]);
    assert_eq!(read.answer, [1, 0, 3]);
    assert_eq!(record(&read.chart, 0), [1, 1, 2, 0, 1, 0, 0, 0, 0, 2, 0, 0]);
    assert_eq!(record(&read.chart, 1), [1, 1, 2, 2, 3, 0, 0, 0, 0, 2, 0, 0]);
    assert_eq!(record(&read.chart, 2), [2, 2, 1, 0, 0, 0, 0, 0, 0, 0, 0, 0]);
}

#[test]
fn a_row_with_nothing_in_it_is_empty_once() {
    let table =
        table("start A1\n1 3\n1 A1(X1.1 7 X1.2 X1.3) -> A2(X1.1, X1.2, X1.3)\n2 A2(, , ) ->");
    let read = reading(&table, &[7, 7, 7]);
    assert_eq!(read.answer, [1, 0, 4]);
    assert_eq!(record(&read.chart, 3), [2, 2, 1, 0, 0, 0, 0, 0, 0, 0, 0, 0]);
}

#[test]
fn room_0() {
    let read = read_into(&amb(), &[], 0, 11);
    assert_eq!((read.answer, read.chart), ([1, 0, 0], vec![0; 11]));
    let read = read_into(&amb(), &[8, 8], 0, 0);
    assert_eq!(read.answer, [1, 0, 0]);
    let read = read_into(&amb(), &[9], 0, 11);
    assert_eq!((read.answer, read.chart), ([16, 0, 0], vec![0; 11]));
}

#[test]
fn full_zeroes_the_whole_slice() {
    let read = read_into(&amb(), &[9; 3], 2, 47);
    assert_eq!((read.answer, read.chart), ([16, 2, 0], vec![0; 47]));
}

#[test]
fn full_is_given_even_where_the_goal_is_found() {
    let table = table("start A1\n1 1\n1 A1(7) ->\n2 A2(X1.1) -> A1(X1.1)");
    assert_eq!(read_into(&table, &[7], 1, 24).answer, [16, 1, 0]);
    assert_eq!(read_into(&table, &[7], 2, 24).answer, [0, 0, 2]);
}

#[test]
fn the_allowance() {
    assert_eq!(read_into(&amb(), &[9; 3], usize::MAX, 24_012).answer, [0, 2, 6]);
    assert_eq!(read_into(&amb(), &[9; 63], usize::MAX, 30_000).answer, [16, 2000, 0]);
    assert_eq!(read_into(&amb(), &[9; 63], 2001, 30_000).answer, [16, 2000, 0]);
}

#[test]
fn a_rule_that_gives_its_own_daughter_adds_nothing() {
    let table = table("start A1\n1\n1 A1(X1.1) -> A1(X1.1)\n2 A1(7) ->");
    let read = reading(&table, &[7]);
    assert_eq!(read.answer, [0, 0, 1]);
    assert_eq!(record(&read.chart, 0), [1, 2, 1, 0, 1, 0, 0, 0, 0, 0, 0, 0]);
}

#[test]
fn a_table_without_rules() {
    assert_eq!(reading(&table("start A1\n1"), &[]).answer, [1, 0, 0]);
}

#[test]
fn ranges_of_one_item_may_share_words_but_crossed_halves_do_not_join() {
    let table = table("start A1\n1 2\n1 A1(X1.2 X1.1) -> A2(X1.1, X1.2)\n2 A2(7, 8) ->");
    assert_eq!(reading(&table, &[7, 8]).answer, [1, 0, 1]);
    assert_eq!(reading(&table, &[8, 7]).answer, [0, 0, 2]);
}
