//! The table check and the words check: every code from 2 to 15, the order in
//! which they come, and the examples of READINGS.md, "Table and words".

mod common;
use common::*;
use reference::read;

/// Table answers for changed bytes of COPY: place, byte, code, its place.
#[test]
fn changed_bytes_of_copy() {
    let cases = [
        (0, b'N', 3, 0),
        (2, b'C', 3, 0),
        (3, 2, 4, 3),
        (4, 1, 4, 3),
        (5, 0, 5, 5),
        (5, 65, 5, 5),
        (6, 0, 6, 6),
        (6, 3, 6, 6),
        (8, 2, 5, 7),
        (9, 0, 5, 9),
        (10, 4, 5, 10),
        (6, 2, 11, 10),
        (11, 0, 7, 11),
        (23, 10, 7, 23),
        (13, 0, 6, 13),
        (13, 3, 6, 13),
        (14, 4, 5, 14),
        (15, 3, 6, 15),
        (16, 17, 5, 16),
        (17, 2, 8, 17),
        (18, 0, 8, 18),
        (18, 3, 8, 18),
        (19, 1, 8, 18),
        (21, 1, 9, 20),
        (16, 1, 10, 11),
    ];
    for (place, byte, code, at) in cases {
        let answer = table_answer(&with_byte(&copy(), place, byte));
        assert_eq!(answer, [code, at, 0], "byte {place} made {byte}");
    }
}

#[test]
fn a_good_table_passes() {
    assert_eq!(table_answer(&copy()), [20, 0, 0]);
    assert_eq!(table_answer(&amb()), [20, 0, 0]);
}

#[test]
fn every_cut_of_copy_is_short() {
    let copy = copy();
    for length in 0..copy.len() {
        assert_eq!(table_answer(&copy[..length]), [2, length as u64, 0]);
    }
}

#[test]
fn fewer_than_nine_bytes_is_short_before_the_mark() {
    assert_eq!(table_answer(b"XXXXXXXX"), [2, 8, 0]);
    assert_eq!(table_answer(b"XXXXXXXXX"), [3, 0, 0]);
}

#[test]
fn the_word_zero_in_a_row() {
    let table = tables::table("start A1\n1\n1 A1(0) ->");
    assert_eq!(table_answer(&table), [8, 16, 0]);
}

#[test]
fn dimensions_are_fields_one_by_one() {
    assert_eq!(table_answer(&with_byte(&copy()[..10], 9, 0)), [5, 9, 0]);
}

#[test]
fn start_is_judged_after_all_dimensions() {
    let mut table = b"MCG\x01\x00\x02\x01\x00\x00".to_vec();
    table.extend([2, 0]);
    assert_eq!(table_answer(&table), [5, 10, 0]);
    table[10] = 3;
    assert_eq!(table_answer(&table), [11, 9, 0]);
    table.pop();
    assert_eq!(table_answer(&table), [2, 10, 0]);
}

#[test]
fn a_field_cut_in_the_middle_is_short() {
    // COPY's second rule starts at byte 23 with a function of two bytes.
    let zero = with_byte(&copy()[..24], 23, 0);
    assert_eq!(table_answer(&zero), [2, 24, 0]);
}

#[test]
fn a_symbol_needs_three_bytes_before_its_kind_is_judged() {
    let bad_kind = with_byte(&copy(), 17, 9);
    assert_eq!(table_answer(&bad_kind[..19]), [2, 19, 0]);
    assert_eq!(table_answer(&bad_kind[..20]), [8, 17, 0]);
}

#[test]
fn the_place_of_8_when_only_the_high_byte_is_wrong() {
    assert_eq!(table_answer(&with_byte(&copy(), 19, 1)), [8, 18, 0]);
}

#[test]
fn missing_comes_when_the_rows_end() {
    // The first rule's row is emptied: bytes 17 to 22 go, the length becomes 0.
    let copy = with_byte(&copy(), 16, 0);
    assert_eq!(table_answer(&copy[..17]), [10, 11, 0]);
    let trailing = tables::table("start A1\n1\n1 A1() -> A1(X1.1)");
    assert_eq!(table_answer(&trailing), [10, 10, 0]);
    assert_eq!(table_answer(&[&trailing[..], &[0]].concat()), [10, 10, 0]);
}

#[test]
fn an_unused_constituent_of_a_later_daughter_is_missing() {
    let table = tables::table("start A1\n1 2\n5 A1(X1.1 X2.1) -> A1(X1.1) A2(X2.1, X2.2)");
    assert_eq!(table_answer(&table), [10, 11, 0]);
}

fn words_answer(bytes: &[u8]) -> [u64; 3] {
    let mut chart = [LENT; 30];
    let answer = numbers(read(&amb(), bytes, 1, &mut chart));
    if (13..=15).contains(&answer[0]) {
        assert_eq!(chart, [LENT; 30]);
    }
    answer
}

#[test]
fn words_long_odd_and_zero() {
    assert_eq!(words_answer(&[9; 129]), [14, 128, 0]);
    assert_eq!(words_answer(&[0; 131]), [13, 64, 0]);
    assert_eq!(words_answer(&[0; 130]), [13, 64, 0]);
    assert_eq!(words_answer(&[0; 3]), [14, 2, 0]);
    assert_eq!(words_answer(&[9]), [14, 0, 0]);
    assert_eq!(words_answer(&[9, 0, 0, 9, 0, 0]), [15, 2, 0]);
    assert_eq!(words_answer(&[9, 0]), [0, 0, 1]);
}

#[test]
fn the_table_is_judged_before_the_words() {
    let mut chart = [LENT; 12];
    assert_eq!(numbers(read(&copy()[..5], &[0; 3], 0, &mut chart)), [2, 5, 0]);
    assert_eq!(chart, [LENT; 12]);
}
