//! Where a length is 0 the pointer may be null: an empty `std::vector` or an
//! absent buffer of C hands that over. Each slice of each call is lent so, alone
//! and with all others, and the answer is that of an empty slice.

use std::ptr::{null, null_mut};

use board::calls;
use tables::worked::AMB;

extern "C" {
    fn mcg_read(
        table: *const u8,
        table_len: usize,
        words: *const u8,
        words_len: usize,
        allowance: usize,
        chart: *mut u16,
        chart_len: usize,
        answer: *mut u64,
    );

    fn mcg_tree(
        table: *const u8,
        table_len: usize,
        words: *const u8,
        words_len: usize,
        chart: *const u16,
        chart_len: usize,
        count: usize,
        root: usize,
        tree: *mut u16,
        tree_len: usize,
        answer: *mut u64,
    );

    fn mcg_sentence(
        table: *const u8,
        table_len: usize,
        tree: *const u16,
        tree_len: usize,
        text: *mut u16,
        text_len: usize,
        answer: *mut u64,
    );
}

/// A slice's pointer and length; null, if the slice is empty.
fn lent<T>(slice: &[T]) -> (*const T, usize) {
    (if slice.is_empty() { null() } else { slice.as_ptr() }, slice.len())
}

fn lent_to_write<T>(slice: &mut [T]) -> (*mut T, usize) {
    (if slice.is_empty() { null_mut() } else { slice.as_mut_ptr() }, slice.len())
}

/// Every choice of a whole or an empty slice: `either(&whole)` for each bit.
fn either<T>(choice: usize, bit: usize, whole: &[T]) -> &[T] {
    if choice & (1 << bit) == 0 {
        &[]
    } else {
        whole
    }
}

fn numbers(answer: [u64; 3]) -> String {
    format!("{} {} {}", answer[0], answer[1], answer[2])
}

#[test]
fn the_reader_takes_null_for_an_empty_slice() {
    let (table, words) = (tables::table(AMB), tables::words(&[9, 9]));
    for choice in 0..8 {
        let (table, words) = (either(choice, 0, &table), either(choice, 1, &words));
        let mut chart = either(choice, 2, &[7u16; 40]).to_vec();
        let mut expected = chart.clone();
        let mut answer = [99; 3];
        let ((t, t_len), (w, w_len)) = (lent(table), lent(words));
        let (c, c_len) = lent_to_write(&mut chart);
        // SAFETY: each pointer has its slice's length, and is null only with 0.
        unsafe { mcg_read(t, t_len, w, w_len, 0, c, c_len, answer.as_mut_ptr()) };
        let said = calls::read(table, words, 0, &mut expected);
        assert_eq!((numbers(answer), chart), (said.to_string(), expected), "{choice:b}");
    }
}

#[test]
fn the_tree_writer_takes_null_for_an_empty_slice() {
    let (table, words) = (tables::table(AMB), tables::words(&[9]));
    let chart: [u16; 12] = [1, 2, 1, 0, 1, 0, 0, 0, 0, 0, 0, 0];
    for choice in 0..32 {
        let (table, words) = (either(choice, 0, &table), either(choice, 1, &words));
        let chart = either(choice, 2, &chart);
        let mut tree = either(choice, 3, &[7u16; 4]).to_vec();
        let count = choice >> 4;
        let mut expected = tree.clone();
        let mut answer = [99; 3];
        let ((t, t_len), (w, w_len), (c, c_len)) = (lent(table), lent(words), lent(chart));
        let (l, l_len) = lent_to_write(&mut tree);
        // SAFETY: as above.
        unsafe { mcg_tree(t, t_len, w, w_len, c, c_len, count, 0, l, l_len, answer.as_mut_ptr()) };
        let said = calls::tree(table, words, chart, count, 0, &mut expected);
        assert_eq!((numbers(answer), tree), (said.to_string(), expected), "{choice:b}");
    }
}

#[test]
fn the_sentence_writer_takes_null_for_an_empty_slice() {
    let table = tables::table(AMB);
    for choice in 0..8 {
        let (table, tree) = (either(choice, 0, &table), either(choice, 1, &[2u16]));
        let mut text = either(choice, 2, &[7u16; 4]).to_vec();
        let mut expected = text.clone();
        let mut answer = [99; 3];
        let ((t, t_len), (l, l_len)) = (lent(table), lent(tree));
        let (x, x_len) = lent_to_write(&mut text);
        // SAFETY: as above.
        unsafe { mcg_sentence(t, t_len, l, l_len, x, x_len, answer.as_mut_ptr()) };
        let said = calls::sentence(table, tree, &mut expected);
        assert_eq!((numbers(answer), text), (said.to_string(), expected), "{choice:b}");
    }
}
