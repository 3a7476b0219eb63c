//! The tree writer, with its answer by name.

use std::fmt;

use crate::answer::{never, Answer};
use crate::calls;
use crate::refusal::Refusal;
use crate::saying::counted;

/// What the tree writer answers. A refusal writes nothing.
#[derive(Clone, Copy, PartialEq, Eq, Debug)]
pub enum TreeWriting {
    /// 0: the tree's function numbers are written.
    Written { nodes: usize },
    /// 17: this record of the chart is the first that is wrong; or the count is
    /// more than 2,000 or than the chart holds, and then 0 says nothing.
    Chart { record: usize },
    /// 18: the root is not below the count.
    Place { root: usize },
    /// 19: the tree has more nodes than room.
    TreeRoom { room: usize },
    /// 2 to 15: table or words are wrong.
    Refused(Refusal),
}

/// Writes the tree of the chart's record at `root`.
///
/// # Panics
/// If the library answers what the tree writer never answers.
pub fn write_tree(
    table: &[u8],
    words: &[u8],
    chart: &[u16],
    count: usize,
    root: usize,
    tree: &mut [u16],
) -> TreeWriting {
    let answer = calls::tree(table, words, chart, count, root, tree);
    TreeWriting::named(answer).unwrap_or_else(|| never("the tree writer", answer))
}

impl TreeWriting {
    /// The writing that these numbers say, if they say one.
    pub fn named(answer: Answer) -> Option<TreeWriting> {
        let (place, count) = (answer.place as usize, answer.count as usize);
        let writing = match answer.code {
            0 => TreeWriting::Written { nodes: count },
            17 => TreeWriting::Chart { record: place },
            18 => TreeWriting::Place { root: place },
            19 => TreeWriting::TreeRoom { room: place },
            _ => TreeWriting::Refused(Refusal::named(answer)?),
        };
        Some(writing).filter(|writing| writing.answer() == answer)
    }

    /// The number of nodes that were written, or the refusal as an error.
    pub fn nodes(self) -> Result<usize, TreeWriting> {
        match self {
            TreeWriting::Written { nodes } => Ok(nodes),
            refused => Err(refused),
        }
    }

    /// Document 01's code, place and count.
    pub fn answer(&self) -> Answer {
        match *self {
            TreeWriting::Written { nodes } => Answer::new(0, 0, nodes),
            TreeWriting::Chart { record } => Answer::refused(17, record),
            TreeWriting::Place { root } => Answer::refused(18, root),
            TreeWriting::TreeRoom { room } => Answer::refused(19, room),
            TreeWriting::Refused(refusal) => refusal.answer(),
        }
    }
}

impl fmt::Display for TreeWriting {
    fn fmt(&self, f: &mut fmt::Formatter) -> fmt::Result {
        match self {
            TreeWriting::Written { nodes } => {
                write!(f, "The tree is written: {} (code 0).", counted(*nodes, "node"))
            }
            TreeWriting::Chart { record } => {
                write!(f, "This chart can't be trusted: its count or its record at place {record} is wrong (place {record}, code 17).")
            }
            TreeWriting::Place { root } => {
                write!(f, "The chart has no record at place {root} (place {root}, code 18).")
            }
            TreeWriting::TreeRoom { room } => {
                write!(
                    f,
                    "The tree has more nodes than the room for {room} (place {room}, code 19)."
                )
            }
            TreeWriting::Refused(refusal) => refusal.fmt(f),
        }
    }
}

impl std::error::Error for TreeWriting {}

#[cfg(test)]
mod tests {
    use super::*;

    #[test]
    fn each_answer_of_the_tree_writer_has_its_name() {
        let answers = [
            (Answer::new(0, 0, 5), TreeWriting::Written { nodes: 5 }),
            (Answer::new(17, 2, 0), TreeWriting::Chart { record: 2 }),
            (Answer::new(18, 9, 0), TreeWriting::Place { root: 9 }),
            (Answer::new(19, 4, 0), TreeWriting::TreeRoom { room: 4 }),
            (Answer::new(13, 64, 0), TreeWriting::Refused(Refusal::Long)),
        ];
        for (answer, writing) in answers {
            assert_eq!(TreeWriting::named(answer), Some(writing));
            assert_eq!(writing.answer(), answer);
            assert!(writing.to_string().contains(&format!("code {})", answer.code)));
        }
    }

    #[test]
    fn what_the_tree_writer_never_answers_has_none() {
        for answer in [Answer::new(1, 0, 0), Answer::new(0, 1, 5), Answer::new(20, 0, 0)] {
            assert_eq!(TreeWriting::named(answer), None);
        }
    }
}
