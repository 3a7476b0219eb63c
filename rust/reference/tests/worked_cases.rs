//! All worked cases of document 01, in its order.

mod common;
use common::*;

/// What the listing program prints for COPY with 7 7, after its first line.
const LISTING: &str = "
1 10 2 0 0 0 0 0 0 2 0 0
1 10 3 0 2 0 0 0 0 4 0 0
2 20 1 0 0 0 0 0 0 0 0 0
2 21 2 0 1 0 1 0 0 2 0 0
2 21 2 0 1 1 2 0 0 2 0 0
2 21 3 0 2 0 2 0 0 7 0 0
2 21 2 1 2 0 1 0 0 2 0 0
2 21 2 1 2 1 2 0 0 2 0 0";

#[test]
fn copy_has_67_bytes_and_is_what_its_clauses_say() {
    assert_eq!(copy().len(), 67);
    assert_eq!(copy(), tables::table(tables::worked::COPY));
}

#[test]
fn the_listing_of_copy_with_7_7() {
    let read = reading(&copy(), &[7, 7]);
    assert_eq!(read.answer, [0, 1, 8]);
    let listed: Vec<u16> = LISTING.split_whitespace().map(|text| text.parse().unwrap()).collect();
    assert_eq!(read.chart[..96], listed);
    assert!(read.chart[96..].iter().all(|&number| number == 0));
}

#[test]
fn copy_with_no_words() {
    assert_eq!(reading(&copy(), &[]).answer, [0, 0, 2]);
}

#[test]
fn copy_with_7_8() {
    assert_eq!(reading(&copy(), &[7, 8]).answer, [1, 0, 5]);
}

#[test]
fn amb_with_no_words() {
    assert_eq!(reading(&amb(), &[]).answer, [1, 0, 0]);
}

#[test]
fn amb_with_three_nines_and_room_6() {
    for (allowance, length) in [(6, 24_000), (0, 72), (2000, 83), (6, 72)] {
        let read = read_into(&amb(), &[9; 3], allowance, length);
        assert_eq!(read.answer, [0, 2, 6]);
        assert_eq!(read.chart[2 * 12 + 9..2 * 12 + 12], [0, 4, 0]);
    }
}

#[test]
fn amb_with_three_nines_and_room_5() {
    for (allowance, length) in [(5, 24_000), (0, 71), (2000, 60)] {
        let read = read_into(&amb(), &[9; 3], allowance, length);
        assert_eq!(read.answer, [16, 5, 0]);
        assert!(read.chart.iter().all(|&number| number == 0));
    }
}

#[test]
fn the_tree_of_three_nines() {
    let chart = reading(&amb(), &[9; 3]).chart;
    let (answer, tree) = tree_into(&amb(), &[9; 3], &chart, (6, 2), 7);
    assert_eq!(answer, [0, 0, 5]);
    assert_eq!(tree, [1, 2, 1, 2, 2, LENT, LENT]);
    let (answer, tree) = tree_into(&amb(), &[9; 3], &chart, (6, 2), 4);
    assert_eq!(answer, [19, 4, 0]);
    assert_eq!(tree, [LENT; 4]);
}

#[test]
fn the_list_1_2_ends_early() {
    let (answer, text) = sentence_into(&amb(), &[1, 2], 3);
    assert_eq!(answer, [20, 2, 0]);
    assert_eq!(text, [LENT; 3]);
}

#[test]
fn copy_cut_and_copy_with_a_byte_too_many() {
    let copy = copy();
    assert_eq!(reading(&copy[..66], &[7, 7]).answer, [2, 66, 0]);
    let longer = [&copy[..], &[0]].concat();
    assert_eq!(reading(&longer, &[7, 7]).answer, [12, 67, 0]);
    let read = read_into(&longer, &[7, 7], 0, 30);
    assert_eq!(read.chart, [LENT; 30]);
}

#[test]
fn amb_with_62_and_63_nines() {
    let read = reading(&amb(), &[9; 62]);
    assert_eq!(read.answer[0], 0);
    assert_eq!(read.answer[2], 1953);
    assert_eq!(read.chart[read.answer[1] as usize * 12 + 2], 7);
    let read = reading(&amb(), &[9; 63]);
    assert_eq!(read.answer, [16, 2000, 0]);
    assert!(read.chart.iter().all(|&number| number == 0));
}

#[test]
fn copy_with_byte_21_made_1() {
    assert_eq!(table_answer(&with_byte(&copy(), 21, 1)), [9, 20, 0]);
}
