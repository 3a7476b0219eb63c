//! The sentence writer, with its answer by name.

use std::fmt;

use crate::answer::{never, Answer};
use crate::calls;
use crate::refusal::Refusal;
use crate::saying::counted;

/// What the sentence writer answers. A refusal writes nothing.
#[derive(Clone, Copy, PartialEq, Eq, Debug)]
pub enum SentenceWriting {
    /// 0: the words are written.
    Written { words: usize },
    /// 20: the list is no tree of the start category. This node is where it
    /// stops being one; the list's length, where it ends too early.
    TreeList { node: usize },
    /// 21: the slice is too short; this many words are needed.
    TextRoom { needed: usize },
    /// 2 to 12: the table is wrong.
    Refused(Refusal),
}

/// Writes the words of the tree that the list describes.
///
/// # Panics
/// If the library answers what the sentence writer never answers.
pub fn write_sentence(table: &[u8], tree: &[u16], text: &mut [u16]) -> SentenceWriting {
    let answer = calls::sentence(table, tree, text);
    SentenceWriting::named(answer).unwrap_or_else(|| never("the sentence writer", answer))
}

impl SentenceWriting {
    /// The writing that these numbers say, if they say one.
    pub fn named(answer: Answer) -> Option<SentenceWriting> {
        let (place, count) = (answer.place as usize, answer.count as usize);
        let writing = match answer.code {
            0 => SentenceWriting::Written { words: count },
            20 => SentenceWriting::TreeList { node: place },
            21 => SentenceWriting::TextRoom { needed: place },
            13..=15 => return None,
            _ => SentenceWriting::Refused(Refusal::named(answer)?),
        };
        Some(writing).filter(|writing| writing.answer() == answer)
    }

    /// The number of words that were written, or the refusal as an error.
    pub fn words(self) -> Result<usize, SentenceWriting> {
        match self {
            SentenceWriting::Written { words } => Ok(words),
            refused => Err(refused),
        }
    }

    /// Document 01's code, place and count.
    pub fn answer(&self) -> Answer {
        match *self {
            SentenceWriting::Written { words } => Answer::new(0, 0, words),
            SentenceWriting::TreeList { node } => Answer::refused(20, node),
            SentenceWriting::TextRoom { needed } => Answer::refused(21, needed),
            SentenceWriting::Refused(refusal) => refusal.answer(),
        }
    }
}

impl fmt::Display for SentenceWriting {
    fn fmt(&self, f: &mut fmt::Formatter) -> fmt::Result {
        match self {
            SentenceWriting::Written { words } => {
                write!(f, "The sentence is written: {} (code 0).", counted(*words, "word"))
            }
            SentenceWriting::TreeList { node } => {
                write!(f, "This list is no tree of the start category: it goes wrong at node {node} (place {node}, code 20).")
            }
            SentenceWriting::TextRoom { needed } => {
                write!(f, "There is too little room for the sentence; it needs {needed} words (place {needed}, code 21).")
            }
            SentenceWriting::Refused(refusal) => refusal.fmt(f),
        }
    }
}

impl std::error::Error for SentenceWriting {}

#[cfg(test)]
mod tests {
    use super::*;

    #[test]
    fn each_answer_of_the_sentence_writer_has_its_name() {
        let answers = [
            (Answer::new(0, 0, 4), SentenceWriting::Written { words: 4 }),
            (Answer::new(20, 2, 0), SentenceWriting::TreeList { node: 2 }),
            (Answer::new(21, 128, 0), SentenceWriting::TextRoom { needed: 128 }),
            (Answer::new(2, 66, 0), SentenceWriting::Refused(Refusal::Short { table_length: 66 })),
        ];
        for (answer, writing) in answers {
            assert_eq!(SentenceWriting::named(answer), Some(writing));
            assert_eq!(writing.answer(), answer);
            assert!(writing.to_string().contains(&format!("code {})", answer.code)));
        }
    }

    #[test]
    fn what_the_sentence_writer_never_answers_has_none() {
        for answer in [Answer::new(1, 0, 0), Answer::new(13, 64, 0), Answer::new(0, 1, 4)] {
            assert_eq!(SentenceWriting::named(answer), None);
        }
    }
}
