//! Who is compared: anything that answers document 01's three calls.

use reference::{read, write_sentence, write_tree, Answer};

/// The three calls.
pub trait Calls {
    fn read(&self, table: &[u8], words: &[u8], allowance: usize, chart: &mut [u16]) -> Answer;

    fn tree(
        &self,
        table: &[u8],
        words: &[u8],
        chart: &[u16],
        count: usize,
        root: usize,
        tree: &mut [u16],
    ) -> Answer;

    fn sentence(&self, table: &[u8], tree: &[u16], text: &mut [u16]) -> Answer;
}

/// The reference.
pub struct Reference;

impl Calls for Reference {
    fn read(&self, table: &[u8], words: &[u8], allowance: usize, chart: &mut [u16]) -> Answer {
        read(table, words, allowance, chart)
    }

    fn tree(
        &self,
        table: &[u8],
        words: &[u8],
        chart: &[u16],
        count: usize,
        root: usize,
        tree: &mut [u16],
    ) -> Answer {
        write_tree(table, words, chart, count, root, tree)
    }

    fn sentence(&self, table: &[u8], tree: &[u16], text: &mut [u16]) -> Answer {
        write_sentence(table, tree, text)
    }
}

/// The C library. Each answer is also held against its name in the wrapper.
#[cfg(feature = "library")]
pub struct Library;

#[cfg(feature = "library")]
impl Calls for Library {
    fn read(&self, table: &[u8], words: &[u8], allowance: usize, chart: &mut [u16]) -> Answer {
        let answer = board::calls::read(table, words, allowance, chart);
        named(answer, board::Reading::named(answer).is_some())
    }

    fn tree(
        &self,
        table: &[u8],
        words: &[u8],
        chart: &[u16],
        count: usize,
        root: usize,
        tree: &mut [u16],
    ) -> Answer {
        let answer = board::calls::tree(table, words, chart, count, root, tree);
        named(answer, board::TreeWriting::named(answer).is_some())
    }

    fn sentence(&self, table: &[u8], tree: &[u16], text: &mut [u16]) -> Answer {
        let answer = board::calls::sentence(table, tree, text);
        named(answer, board::SentenceWriting::named(answer).is_some())
    }
}

/// An answer without a name is made one that the reference never gives, so that
/// it is printed with its input.
#[cfg(feature = "library")]
fn named(answer: board::Answer, has_name: bool) -> Answer {
    let code = if has_name { answer.code } else { u64::MAX };
    Answer { code, place: answer.place, count: answer.count }
}
