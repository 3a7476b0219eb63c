//! The reader, with its answer by name.

use std::fmt;

use crate::answer::{never, Answer};
use crate::calls;
use crate::limits::MOST_RECORDS;
use crate::refusal::Refusal;
use crate::saying::{counted, thousands};

/// What the reader answers. All but `Yes` and `No` say that nothing is known.
#[derive(Clone, Copy, PartialEq, Eq, Debug)]
pub enum Reading {
    /// 0: some tree of the start category spells the sentence. The chart holds
    /// `items` records; the goal's is at `goal`.
    Yes { goal: usize, items: usize },
    /// 1: no tree does. The chart holds `items` records.
    No { items: usize },
    /// 16: there are more true items than room. The chart is all 0.
    Full { room: usize },
    /// 22: a height passes 2,000. The chart is all 0.
    Deep,
    /// 2 to 15: table or words are wrong. The chart is as it was lent.
    Refused(Refusal),
}

/// Reads the words by the table and writes the chart.
///
/// # Panics
/// If the library answers what the reader never answers.
pub fn read(table: &[u8], words: &[u8], allowance: usize, chart: &mut [u16]) -> Reading {
    let answer = calls::read(table, words, allowance, chart);
    Reading::named(answer).unwrap_or_else(|| never("the reader", answer))
}

impl Reading {
    /// The reading that these numbers say, if they say one.
    pub fn named(answer: Answer) -> Option<Reading> {
        let (place, count) = (answer.place as usize, answer.count as usize);
        let reading = match answer.code {
            0 => Reading::Yes { goal: place, items: count },
            1 => Reading::No { items: count },
            16 => Reading::Full { room: place },
            22 => Reading::Deep,
            _ => Reading::Refused(Refusal::named(answer)?),
        };
        Some(reading).filter(|reading| reading.answer() == answer)
    }

    /// Document 01's code, place and count.
    pub fn answer(&self) -> Answer {
        match *self {
            Reading::Yes { goal, items } => Answer::new(0, goal, items),
            Reading::No { items } => Answer::new(1, 0, items),
            Reading::Full { room } => Answer::refused(16, room),
            Reading::Deep => Answer::refused(22, 0),
            Reading::Refused(refusal) => refusal.answer(),
        }
    }
}

impl fmt::Display for Reading {
    fn fmt(&self, f: &mut fmt::Formatter) -> fmt::Result {
        match self {
            Reading::Yes { goal, items } => {
                let phrases = counted(*items, "phrase");
                write!(f, "Yes: the table makes this sentence. It finds {phrases}, the whole sentence at place {goal} (code 0).")
            }
            Reading::No { items } => {
                let phrases = counted(*items, "phrase");
                write!(
                    f,
                    "No: the table does not make this sentence. It finds {phrases} in it (code 1)."
                )
            }
            Reading::Full { room } => {
                write!(f, "Neither yes nor no: there are more phrases than fit. {} (place {room}, code 16).", what_helps(*room))
            }
            Reading::Deep => write!(
                f,
                "Neither yes nor no: a phrase has more than 2,000 levels (place 0, code 22)."
            ),
            Reading::Refused(refusal) => refusal.fmt(f),
        }
    }
}

/// What helps where the chart was full: more room, if there can be more.
fn what_helps(room: usize) -> String {
    let most = thousands(MOST_RECORDS);
    if room < MOST_RECORDS {
        let room = thousands(room);
        format!("There was room for {room}; a larger allowance or chart, up to {most} records, may help")
    } else {
        format!("There was room for {most}, the most there can be: only a shorter sentence helps, or another table")
    }
}

impl std::error::Error for Reading {}

#[cfg(test)]
mod tests {
    use super::*;

    #[test]
    fn each_answer_of_the_reader_has_its_name() {
        let answers = [
            (Answer::new(0, 1, 8), Reading::Yes { goal: 1, items: 8 }),
            (Answer::new(1, 0, 5), Reading::No { items: 5 }),
            (Answer::new(16, 5, 0), Reading::Full { room: 5 }),
            (Answer::new(22, 0, 0), Reading::Deep),
            (Answer::new(14, 4, 0), Reading::Refused(Refusal::Odd { last_byte: 4 })),
        ];
        for (answer, reading) in answers {
            assert_eq!(Reading::named(answer), Some(reading));
            assert_eq!(reading.answer(), answer);
            assert!(reading.to_string().contains(&format!("code {})", answer.code)));
        }
    }

    #[test]
    fn what_the_reader_never_answers_has_none() {
        for answer in [Answer::new(1, 3, 5), Answer::new(16, 5, 1), Answer::new(17, 0, 0)] {
            assert_eq!(Reading::named(answer), None);
        }
    }

    #[test]
    fn full_says_what_helps_and_when_nothing_does() {
        let full = Reading::Full { room: 5 }.to_string();
        assert!(full.starts_with("Neither yes nor no"));
        assert!(full.contains("up to 2,000 records, may help (place 5, code 16)."));
        let full = Reading::Full { room: 2000 }.to_string();
        assert!(!full.contains("allowance") && full.contains("only a shorter sentence helps"));
    }

    #[test]
    fn phrases_are_counted_as_people_count() {
        let said = |items| Reading::No { items }.to_string();
        assert!(said(0).contains("It finds no phrase in it"));
        assert!(said(1).contains("It finds 1 phrase in it"));
        assert!(said(5).contains("It finds 5 phrases in it"));
    }
}
