//! A safe wrapper over the C library `board`: slices in, named answers out.
//!
//! Each of the three calls answers an enum whose cases say what happened, so
//! that no number can be mistaken for another: [`Reading`], [`TreeWriting`] and
//! [`SentenceWriting`]. What is wrong with a table or with words is a
//! [`Refusal`]. Every answer can be printed as a plain sentence, is a
//! [`std::error::Error`] for whoever takes it as one, and `answer()` gives back
//! the scope's code, place and count (`docs/SCOPE.md`).
//!
//! ```
//! use board::{read, words, write_sentence, write_tree, Reading, CHART_NUMBERS, MOST_NODES};
//!
//! # fn main() -> Result<(), Box<dyn std::error::Error>> {
//! // One category; function 1 sets two of it side by side; function 2 is the word 9.
//! let table = b"MCG\x01\0\x01\x01\x02\0\x01\
//!     \x01\0\x01\x02\x01\x01\x02\x01\x01\0\x02\x01\0\
//!     \x02\0\x01\0\x01\0\x09\0";
//! let sentence = words(&[9, 9, 9]);
//! let mut chart = vec![0; CHART_NUMBERS];
//! match read(table, &sentence, 0, &mut chart) {
//!     Reading::Yes { goal, items } => {
//!         let mut tree = [0; MOST_NODES];
//!         let nodes = write_tree(table, &sentence, &chart, items, goal, &mut tree).nodes()?;
//!         assert_eq!(tree[..nodes], [1, 2, 1, 2, 2]);
//!
//!         let mut text = [0; 3];
//!         let spelled = write_sentence(table, &tree[..nodes], &mut text).words()?;
//!         assert_eq!(text[..spelled], [9, 9, 9]);
//!     }
//!     Reading::No { .. } => println!("no tree says this"),
//!     Reading::Full { room } => println!("not known: more than {room} phrases"),
//!     refused => return Err(refused.into()),
//! }
//! # Ok(())
//! # }
//! ```
//!
//! A full chart is no answer, and can't be taken for one:
//!
//! ```
//! # use board::{read, words, Reading};
//! # let table = b"MCG\x01\0\x01\x01\x02\0\x01\
//! #     \x01\0\x01\x02\x01\x01\x02\x01\x01\0\x02\x01\0\
//! #     \x02\0\x01\0\x01\0\x09\0";
//! let mut small = [0; 5 * board::RECORD_NUMBERS];
//! assert_eq!(read(table, &words(&[9, 9, 9]), 0, &mut small), Reading::Full { room: 5 });
//! ```
//!
//! One file holds one topic: `calls` (the C interface), `answer` (the three
//! numbers), `limits`, `refusal`, `reading`, `tree_writing`, `sentence_writing`,
//! `saying` (how numbers are said).

pub mod answer;
pub mod calls;
mod limits;
mod reading;
mod refusal;
mod saying;
mod sentence_writing;
mod tree_writing;

pub use answer::Answer;
pub use limits::{
    words, CHART_NUMBERS, MOST_NODES, MOST_RECORDS, MOST_WORDS, RECORD_NUMBERS, TABLE_BYTES,
};
pub use reading::{read, Reading};
pub use refusal::Refusal;
pub use sentence_writing::{write_sentence, SentenceWriting};
pub use tree_writing::{write_tree, TreeWriting};
