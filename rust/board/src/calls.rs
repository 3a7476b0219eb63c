//! The C interface: the three calls as they are declared, and a safe form of
//! each that gives the three numbers. Use the named answers of this crate where
//! you can; the numbers are for comparing implementations.

use crate::answer::Answer;

extern "C" {
    fn mcg_read(
        table: *const u8,
        table_len: usize,
        words: *const u8,
        words_len: usize,
        allowance: usize,
        chart: *mut u16,
        chart_len: usize,
        answer: *mut u64,
    );

    fn mcg_tree(
        table: *const u8,
        table_len: usize,
        words: *const u8,
        words_len: usize,
        chart: *const u16,
        chart_len: usize,
        count: usize,
        root: usize,
        tree: *mut u16,
        tree_len: usize,
        answer: *mut u64,
    );

    fn mcg_sentence(
        table: *const u8,
        table_len: usize,
        tree: *const u16,
        tree_len: usize,
        text: *mut u16,
        text_len: usize,
        answer: *mut u64,
    );
}

/// The reader's three numbers.
pub fn read(table: &[u8], words: &[u8], allowance: usize, chart: &mut [u16]) -> Answer {
    let mut answer = [0; 3];
    // SAFETY: each pointer comes with the length of the slice that it is from,
    // and `answer` has the three numbers that the call writes.
    unsafe {
        mcg_read(
            table.as_ptr(),
            table.len(),
            words.as_ptr(),
            words.len(),
            allowance,
            chart.as_mut_ptr(),
            chart.len(),
            answer.as_mut_ptr(),
        );
    }
    three(answer)
}

/// The tree writer's three numbers.
pub fn tree(
    table: &[u8],
    words: &[u8],
    chart: &[u16],
    count: usize,
    root: usize,
    tree: &mut [u16],
) -> Answer {
    let mut answer = [0; 3];
    // SAFETY: as in `read`; `chart` is only read.
    unsafe {
        mcg_tree(
            table.as_ptr(),
            table.len(),
            words.as_ptr(),
            words.len(),
            chart.as_ptr(),
            chart.len(),
            count,
            root,
            tree.as_mut_ptr(),
            tree.len(),
            answer.as_mut_ptr(),
        );
    }
    three(answer)
}

/// The sentence writer's three numbers.
pub fn sentence(table: &[u8], tree: &[u16], text: &mut [u16]) -> Answer {
    let mut answer = [0; 3];
    // SAFETY: as in `read`; `tree` is only read.
    unsafe {
        mcg_sentence(
            table.as_ptr(),
            table.len(),
            tree.as_ptr(),
            tree.len(),
            text.as_mut_ptr(),
            text.len(),
            answer.as_mut_ptr(),
        );
    }
    three(answer)
}

fn three([code, place, count]: [u64; 3]) -> Answer {
    Answer { code, place, count }
}
