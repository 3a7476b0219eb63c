//! The worked tables, read by the reference: each says what its document says.

use reference::{read, write_sentence};
use tables::worked::{ABC, FIGURE_3_1, GXX, VERB};

/// Code and count of a reading with 2,000 records, and the chart.
fn reading(text: &str, words: &[u16]) -> (u64, u64, Vec<u16>) {
    let mut chart = vec![0; 24_000];
    let answer = read(&tables::table(text), &tables::words(words), 0, &mut chart);
    (answer.code, answer.count, chart)
}

fn code(text: &str, words: &[u16]) -> u64 {
    reading(text, words).0
}

#[test]
fn document_000_has_as_many_of_each_letter() {
    assert_eq!(code(ABC, &[]), 0);
    assert_eq!(code(ABC, &[1, 1, 2, 2, 3, 3]), 0);
    assert_eq!(code(ABC, &[1, 1, 2, 2, 3]), 1);
    assert_eq!(code(ABC, &[1, 2, 1, 2, 3, 3]), 1);
}

#[test]
fn document_000_spells_its_own_example() {
    // The tree c (s (s z)) spells aabbcc.
    let mut text = [0; 6];
    let answer = write_sentence(&tables::table(ABC), &[1, 2, 2, 3], &mut text);
    assert_eq!((answer.code, answer.count), (0, 6));
    assert_eq!(text, [1, 1, 2, 2, 3, 3]);
}

#[test]
fn figure_3_2_has_four_passive_items() {
    let (code, count, chart) = reading(FIGURE_3_1, &[1, 2, 3, 4]);
    assert_eq!((code, count), (0, 4));
    let items: Vec<&[u16]> = chart[..48].chunks(12).map(|record| &record[3..7]).collect();
    assert_eq!(items, [[0, 4, 0, 0], [0, 1, 2, 3], [0, 2, 2, 4], [1, 2, 3, 4]]);
}

#[test]
fn figure_3_1_generates_what_document_001_says() {
    for words in [&[1, 3][..], &[1, 2, 3, 4], &[2, 2, 1, 4, 4, 3]] {
        assert_eq!(code(FIGURE_3_1, words), 0);
    }
    for words in [&[1, 2, 3][..], &[1, 2, 3, 4, 1, 2, 3, 4]] {
        assert_eq!(code(FIGURE_3_1, words), 1);
    }
}

#[test]
fn gxx_has_as_many_items_as_table_4_has_nodes() {
    for (words, nodes) in [(2, 3), (3, 6), (4, 10), (5, 15), (10, 55), (20, 210), (30, 465)] {
        let (code, count, _) = reading(GXX, &vec![1; words]);
        assert_eq!((code, count), (0, nodes));
    }
}

#[test]
fn the_verb_may_stand_in_two_halves() {
    assert_eq!(code(VERB, &[1, 3, 7, 8, 4]), 0, "we pick the child up");
    assert_eq!(code(VERB, &[1, 3, 4, 7, 8]), 0, "we pick up the child");
    assert_eq!(code(VERB, &[2, 5, 7, 9, 6]), 0, "they call the mother back");
    assert_eq!(code(VERB, &[2, 5, 7, 9, 4]), 1, "they call the mother up");
    assert_eq!(code(VERB, &[1, 3, 7, 8]), 1, "we pick the child");
}
