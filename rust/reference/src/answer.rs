//! The three numbers that every call hands back, and document 01's codes.

/// Code, place and count.
#[derive(Clone, Copy, PartialEq, Eq, Debug)]
pub struct Answer {
    pub code: u64,
    pub place: u64,
    pub count: u64,
}

/// The codes of document 01's table, by their names there.
#[derive(Clone, Copy, PartialEq, Eq, Debug)]
pub enum Code {
    Yes = 0,
    No = 1,
    Short = 2,
    Mark = 3,
    Version = 4,
    Range = 5,
    Category = 6,
    Function = 7,
    Symbol = 8,
    Twice = 9,
    Missing = 10,
    Start = 11,
    Trailing = 12,
    Long = 13,
    Odd = 14,
    ZeroWord = 15,
    Full = 16,
    Chart = 17,
    Place = 18,
    TreeRoom = 19,
    TreeList = 20,
    TextRoom = 21,
    Deep = 22,
}

/// A refusal: its code and its place. The count of a refusal is 0.
#[derive(Clone, Copy, PartialEq, Eq, Debug)]
pub struct Refusal {
    pub code: Code,
    pub place: usize,
}

impl Refusal {
    pub fn new(code: Code, place: usize) -> Refusal {
        Refusal { code, place }
    }
}

impl Answer {
    pub fn new(code: Code, place: usize, count: usize) -> Answer {
        Answer { code: code as u64, place: place as u64, count: count as u64 }
    }

    /// What a writer answers when it has written `count` numbers.
    pub fn written(count: usize) -> Answer {
        Answer::new(Code::Yes, 0, count)
    }
}

impl From<Refusal> for Answer {
    fn from(refusal: Refusal) -> Answer {
        Answer::new(refusal.code, refusal.place, 0)
    }
}
