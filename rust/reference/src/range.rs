//! Ranges of a sentence, and joining two of them.

/// Words `start` up to but not including `end`; (0, 0) is the empty string.
/// The order is that of the two numbers.
#[derive(Clone, Copy, PartialEq, Eq, PartialOrd, Ord, Hash, Debug)]
pub struct Range {
    pub start: u16,
    pub end: u16,
}

/// What joining two ranges comes to.
#[derive(Clone, Copy, PartialEq, Eq, Debug)]
pub enum Joining {
    Joined(Range),
    Apart,
}

impl Range {
    /// The empty string's one range.
    pub const EMPTY: Range = Range { start: 0, end: 0 };

    pub fn new(start: usize, end: usize) -> Range {
        Range { start: start as u16, end: end as u16 }
    }

    pub fn is_empty(self) -> bool {
        self == Range::EMPTY
    }

    /// Whether this is a range of a sentence of `n` words.
    pub fn is_of(self, n: usize) -> bool {
        self.is_empty() || (self.start < self.end && self.end as usize <= n)
    }

    /// Joins this range with the one after it.
    pub fn join(self, next: Range) -> Joining {
        if self.is_empty() {
            Joining::Joined(next)
        } else if next.is_empty() {
            Joining::Joined(self)
        } else if self.end == next.start {
            Joining::Joined(Range { start: self.start, end: next.end })
        } else {
            Joining::Apart
        }
    }
}

#[cfg(test)]
mod tests {
    use super::*;

    #[test]
    fn the_empty_range_gives_the_other() {
        let range = Range::new(2, 4);
        assert_eq!(Range::EMPTY.join(range), Joining::Joined(range));
        assert_eq!(range.join(Range::EMPTY), Joining::Joined(range));
        assert_eq!(Range::EMPTY.join(Range::EMPTY), Joining::Joined(Range::EMPTY));
    }

    #[test]
    fn neighbours_join_and_others_do_not() {
        let range = Range::new(2, 4);
        assert_eq!(range.join(Range::new(4, 5)), Joining::Joined(Range::new(2, 5)));
        assert_eq!(range.join(Range::new(5, 6)), Joining::Apart);
        assert_eq!(range.join(Range::new(3, 6)), Joining::Apart);
        assert_eq!(range.join(Range::new(0, 2)), Joining::Apart);
    }

    #[test]
    fn ranges_of_a_sentence() {
        assert!(Range::new(0, 0).is_of(0));
        assert!(Range::new(0, 3).is_of(3));
        assert!(!Range::new(0, 4).is_of(3));
        assert!(!Range::new(2, 2).is_of(3));
        assert!(!Range::new(2, 1).is_of(3));
    }
}
