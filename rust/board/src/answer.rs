//! The three numbers that every call hands back.

use std::fmt;

/// Code, place and count, as the C library writes them.
#[derive(Clone, Copy, PartialEq, Eq, Debug)]
pub struct Answer {
    pub code: u64,
    pub place: u64,
    pub count: u64,
}

impl Answer {
    pub(crate) fn new(code: u64, place: usize, count: usize) -> Answer {
        Answer { code, place: place as u64, count: count as u64 }
    }

    /// A refusal has count 0.
    pub(crate) fn refused(code: u64, place: usize) -> Answer {
        Answer::new(code, place, 0)
    }
}

impl fmt::Display for Answer {
    fn fmt(&self, f: &mut fmt::Formatter) -> fmt::Result {
        write!(f, "{} {} {}", self.code, self.place, self.count)
    }
}

/// What is said when the library breaks its promise.
pub(crate) fn never(call: &str, answer: Answer) -> ! {
    panic!("the library answered {answer}, which {call} never answers")
}
