//! Document 01's reader, tree writer and sentence writer, written from the
//! document alone and to be plainly right rather than quick. The C library is
//! compared with this crate; nothing else should need it to be fast.
//!
//! One file holds one topic, from the bottom up: `answer`, `cursor`, `table`,
//! `table_check`, `words`, `range`, `item`, `phrase`, `combinations`, `levels`,
//! `chosen`, `chart`, `reader`, `chart_check`, `tree`, `sentence`.

pub mod answer;
pub mod chart;
pub mod chart_check;
pub mod chosen;
pub mod combinations;
pub mod cursor;
pub mod item;
pub mod levels;
pub mod phrase;
pub mod range;
pub mod reader;
pub mod sentence;
pub mod table;
pub mod table_check;
pub mod tree;
pub mod words;

pub use answer::{Answer, Code, Refusal};
pub use reader::read;
pub use sentence::write_sentence;
pub use tree::write_tree;
