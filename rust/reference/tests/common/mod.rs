//! What the tests of this crate share: document 01's tables and short ways to
//! make the three calls on slices that are filled with a mark first.
#![allow(dead_code)]

use reference::{read, write_sentence, write_tree, Answer};

/// What stands in a slice before it is lent.
pub const LENT: u16 = 0xABCD;

/// COPY as document 01 writes it.
pub const COPY_IN_HEXADECIMAL: &str = "
    4D 43 47 01 00 02 01 04 00 01 02 | 0A 00 01 01 02 02 01 01 00 01 02 00
    | 14 00 02 00 00 00 | 15 00 02 01 02 02 00 07 00 01 01 00 02 00 07 00 01 02 00
    | 16 00 02 01 02 02 00 08 00 01 01 00 02 00 08 00 01 02 00";

pub fn copy() -> Vec<u8> {
    let bytes = COPY_IN_HEXADECIMAL.split_whitespace().filter(|text| *text != "|");
    bytes.map(|text| u8::from_str_radix(text, 16).unwrap()).collect()
}

pub fn amb() -> Vec<u8> {
    tables::table(tables::worked::AMB)
}

/// `table` with one byte changed.
pub fn with_byte(table: &[u8], place: usize, byte: u8) -> Vec<u8> {
    let mut changed = table.to_vec();
    changed[place] = byte;
    changed
}

pub fn numbers(answer: Answer) -> [u64; 3] {
    [answer.code, answer.place, answer.count]
}

/// A reading: the answer, and the chart's slice afterwards.
pub struct Read {
    pub answer: [u64; 3],
    pub chart: Vec<u16>,
}

/// Reads with a slice of `length` numbers.
pub fn read_into(table: &[u8], words: &[u16], allowance: usize, length: usize) -> Read {
    let mut chart = vec![LENT; length];
    let answer = read(table, &tables::words(words), allowance, &mut chart);
    Read { answer: numbers(answer), chart }
}

/// Reads with allowance 0 and room for 2,000 records.
pub fn reading(table: &[u8], words: &[u16]) -> Read {
    read_into(table, words, 0, 24_000)
}

/// The answer of the table check alone, seen through the sentence writer: a
/// table that passes is then refused for its empty tree list (20 at 0).
pub fn table_answer(table: &[u8]) -> [u64; 3] {
    numbers(write_sentence(table, &[], &mut []))
}

/// The tree writer on a slice of `length` numbers.
pub fn tree_into(
    table: &[u8],
    words: &[u16],
    chart: &[u16],
    (count, root): (usize, usize),
    length: usize,
) -> ([u64; 3], Vec<u16>) {
    let mut tree = vec![LENT; length];
    let answer = write_tree(table, &tables::words(words), chart, count, root, &mut tree);
    (numbers(answer), tree)
}

/// The sentence writer on a slice of `length` numbers.
pub fn sentence_into(table: &[u8], tree: &[u16], length: usize) -> ([u64; 3], Vec<u16>) {
    let mut text = vec![LENT; length];
    let answer = write_sentence(table, tree, &mut text);
    (numbers(answer), text)
}
