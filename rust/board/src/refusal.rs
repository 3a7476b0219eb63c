//! What can be wrong with a table (codes 2 to 12) or with words (13 to 15).

use std::fmt;

use crate::answer::Answer;

/// A refusal of a table or of words. Each case holds the place that document 01
/// gives it; three have a place that is always the same.
#[derive(Clone, Copy, PartialEq, Eq, Debug)]
pub enum Refusal {
    /// 2: a field is cut by the table's end.
    Short { table_length: usize },
    /// 3: the table does not begin with `MCG`.
    Mark,
    /// 4: the version is not 1.
    Version,
    /// 5: a number is outside its limits.
    Range { field: usize },
    /// 6: there is no such category.
    Category { field: usize },
    /// 7: a function number is 0 or used before.
    Function { field: usize },
    /// 8: a symbol that can't be.
    Symbol { byte: usize },
    /// 9: a constituent is used again in its rule.
    Twice { kind_byte: usize },
    /// 10: a constituent is unused in its rule.
    Missing { rule: usize },
    /// 11: the start's dimension is not 1.
    Start { dimension: usize },
    /// 12: there are bytes after the last rule.
    Trailing { first: usize },
    /// 13: there are more than 64 words.
    Long,
    /// 14: the words' bytes are odd in number.
    Odd { last_byte: usize },
    /// 15: a word is 0.
    ZeroWord { index: usize },
}

impl Refusal {
    /// Document 01's code.
    pub fn code(&self) -> u64 {
        match self {
            Refusal::Short { .. } => 2,
            Refusal::Mark => 3,
            Refusal::Version => 4,
            Refusal::Range { .. } => 5,
            Refusal::Category { .. } => 6,
            Refusal::Function { .. } => 7,
            Refusal::Symbol { .. } => 8,
            Refusal::Twice { .. } => 9,
            Refusal::Missing { .. } => 10,
            Refusal::Start { .. } => 11,
            Refusal::Trailing { .. } => 12,
            Refusal::Long => 13,
            Refusal::Odd { .. } => 14,
            Refusal::ZeroWord { .. } => 15,
        }
    }

    /// Document 01's place.
    pub fn place(&self) -> usize {
        match *self {
            Refusal::Mark => 0,
            Refusal::Version => 3,
            Refusal::Long => 64,
            Refusal::Short { table_length: place }
            | Refusal::Range { field: place }
            | Refusal::Category { field: place }
            | Refusal::Function { field: place }
            | Refusal::Symbol { byte: place }
            | Refusal::Twice { kind_byte: place }
            | Refusal::Missing { rule: place }
            | Refusal::Start { dimension: place }
            | Refusal::Trailing { first: place }
            | Refusal::Odd { last_byte: place }
            | Refusal::ZeroWord { index: place } => place,
        }
    }

    /// The refusal that these numbers say, if they say one.
    pub fn named(answer: Answer) -> Option<Refusal> {
        let place = answer.place as usize;
        let refusal = match answer.code {
            2 => Refusal::Short { table_length: place },
            3 => Refusal::Mark,
            4 => Refusal::Version,
            5 => Refusal::Range { field: place },
            6 => Refusal::Category { field: place },
            7 => Refusal::Function { field: place },
            8 => Refusal::Symbol { byte: place },
            9 => Refusal::Twice { kind_byte: place },
            10 => Refusal::Missing { rule: place },
            11 => Refusal::Start { dimension: place },
            12 => Refusal::Trailing { first: place },
            13 => Refusal::Long,
            14 => Refusal::Odd { last_byte: place },
            15 => Refusal::ZeroWord { index: place },
            _ => return None,
        };
        Some(refusal).filter(|refusal| refusal.answer() == answer)
    }

    /// The three numbers of this refusal.
    pub fn answer(&self) -> Answer {
        Answer::refused(self.code(), self.place())
    }

    /// What is wrong, as a plain sentence; `@` stands for the place.
    fn sentence(&self) -> &'static str {
        use Refusal::*;
        match self {
            Short { .. } => "The table stops in the middle: it has only @ bytes",
            Mark => "This is no rule table: it does not begin with MCG",
            Version => "This table has another version; only version 1 can be read",
            Range { .. } => "The number at byte @ of the table is outside its limits",
            Category { .. } => "The table has no category with the number that its byte @ names",
            Function { .. } => "The function number at byte @ of the table is 0 or was used before",
            Symbol { .. } => "The symbol at byte @ of the table names something that is not there",
            Twice { .. } => "The symbol at byte @ of the table uses a constituent again",
            Missing { .. } => "The rule at byte @ of the table leaves a constituent unused",
            Start { .. } => "The start must have one constituent, but byte @ says another number",
            Trailing { .. } => "The table goes on after its last rule, from byte @",
            Long => "The sentence has more than 64 words",
            Odd { .. } => "Each word takes two bytes, but byte @ of the words stands alone",
            ZeroWord { .. } => "The word with index @ is 0, and no word is 0",
        }
    }
}

impl fmt::Display for Refusal {
    fn fmt(&self, f: &mut fmt::Formatter) -> fmt::Result {
        let sentence = self.sentence().replace('@', &self.place().to_string());
        write!(f, "{sentence} (place {}, code {}).", self.place(), self.code())
    }
}

impl std::error::Error for Refusal {}

#[cfg(test)]
mod tests {
    use super::*;

    #[test]
    fn every_code_from_2_to_15_has_a_name_and_keeps_its_numbers() {
        for code in 2..=15 {
            let place = match code {
                3 => 0,
                4 => 3,
                13 => 64,
                _ => 7,
            };
            let answer = Answer::refused(code, place);
            let refusal = Refusal::named(answer).expect("a refusal");
            assert_eq!((refusal.code(), refusal.place()), (code, place));
            assert!(refusal.to_string().contains(&format!("(place {place}, code {code})")));
            assert!(!refusal.to_string().contains('@'));
        }
    }

    #[test]
    fn the_sentence_names_the_place() {
        let cut = Refusal::Short { table_length: 66 };
        assert_eq!(
            cut.to_string(),
            "The table stops in the middle: it has only 66 bytes (place 66, code 2)."
        );
    }

    #[test]
    fn other_numbers_are_no_refusal() {
        for code in [0, 1, 16, 17, 18, 19, 20, 21, 22, 23] {
            assert_eq!(Refusal::named(Answer::refused(code, 0)), None);
        }
        assert_eq!(Refusal::named(Answer::refused(3, 1)), None);
        assert_eq!(Refusal::named(Answer::new(2, 5, 1)), None);
    }
}
