//! Calls that are the reference's, but for one that may be replaced.
#![allow(dead_code)]

use differential::Calls;
use reference::Answer;

pub type Read = fn(&[u8], &[u8], usize, &mut [u16]) -> Answer;
pub type Tree = fn(&[u8], &[u8], &[u16], usize, usize, &mut [u16]) -> Answer;
pub type Sentence = fn(&[u8], &[u16], &mut [u16]) -> Answer;

/// The three calls, each from somewhere.
pub struct Wrong {
    pub read: Read,
    pub tree: Tree,
    pub sentence: Sentence,
}

/// All three are the reference's.
pub const RIGHT: Wrong = Wrong {
    read: reference::read,
    tree: reference::write_tree,
    sentence: reference::write_sentence,
};

pub fn reader(read: Read) -> Wrong {
    Wrong { read, ..RIGHT }
}

pub fn tree_writer(tree: Tree) -> Wrong {
    Wrong { tree, ..RIGHT }
}

pub fn sentence_writer(sentence: Sentence) -> Wrong {
    Wrong { sentence, ..RIGHT }
}

impl Calls for Wrong {
    fn read(&self, table: &[u8], words: &[u8], allowance: usize, chart: &mut [u16]) -> Answer {
        (self.read)(table, words, allowance, chart)
    }

    fn tree(
        &self,
        table: &[u8],
        words: &[u8],
        chart: &[u16],
        count: usize,
        root: usize,
        tree: &mut [u16],
    ) -> Answer {
        (self.tree)(table, words, chart, count, root, tree)
    }

    fn sentence(&self, table: &[u8], tree: &[u16], text: &mut [u16]) -> Answer {
        (self.sentence)(table, tree, text)
    }
}
