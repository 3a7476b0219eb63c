//! What is printed when two implementations differ: the input as hexadecimal
//! numbers, and both answers.

use std::fmt;

use reference::Answer;

/// Nothing to say, or the first mismatch.
pub type Compared = Result<(), Box<Mismatch>>;

/// A call on which the two sides differ.
pub struct Mismatch {
    pub call: &'static str,
    /// The inputs by name, already written out.
    pub input: Vec<(&'static str, String)>,
    pub one: Side,
    pub other: Side,
}

/// One side's answer, and the slice that was lent to it.
#[derive(Clone, PartialEq, Eq)]
pub struct Side {
    pub answer: Answer,
    pub slice: Vec<u16>,
}

impl fmt::Display for Mismatch {
    fn fmt(&self, f: &mut fmt::Formatter) -> fmt::Result {
        writeln!(f, "the two sides differ in: {}", self.call)?;
        for (name, text) in &self.input {
            writeln!(f, "  {name}: {text}")?;
        }
        writeln!(f, "  one side answers:   {}", numbers(self.one.answer))?;
        writeln!(f, "  the other answers:  {}", numbers(self.other.answer))?;
        let mut pairs = self.one.slice.iter().zip(&self.other.slice);
        match pairs.position(|(one, other)| one != other) {
            None => writeln!(f, "  the lent slices are equal"),
            Some(first) => {
                writeln!(f, "  the lent slices differ first at number {first}")?;
                writeln!(f, "  one side's slice:   {}", self.one.shown())?;
                writeln!(f, "  the other's slice:  {}", self.other.shown())
            }
        }
    }
}

impl fmt::Debug for Mismatch {
    fn fmt(&self, f: &mut fmt::Formatter) -> fmt::Result {
        fmt::Display::fmt(self, f)
    }
}

impl Side {
    fn shown(&self) -> String {
        hex_numbers(&self.slice)
    }
}

fn numbers(answer: Answer) -> String {
    format!("{} {} {}", answer.code, answer.place, answer.count)
}

/// Bytes as hexadecimal numbers.
pub fn hex(bytes: &[u8]) -> String {
    let texts: Vec<String> = bytes.iter().map(|byte| format!("{byte:02X}")).collect();
    texts.join(" ")
}

/// Two-byte numbers as hexadecimal numbers; what repeats to the end is cut short.
pub fn hex_numbers(numbers: &[u16]) -> String {
    let Some(&last) = numbers.last() else { return "(none)".to_string() };
    let kept = numbers.iter().rposition(|&number| number != last).map_or(0, |place| place + 1);
    let texts: Vec<String> = numbers[..kept].iter().map(|number| format!("{number:04X}")).collect();
    format!("{} and then {} times {last:04X}", texts.join(" "), numbers.len() - kept)
}

#[cfg(test)]
mod tests {
    use super::*;

    #[test]
    fn hexadecimal_numbers() {
        assert_eq!(hex(&[0, 10, 255]), "00 0A FF");
        assert_eq!(hex_numbers(&[]), "(none)");
        assert_eq!(hex_numbers(&[1, 0xABCD, 7, 7]), "0001 ABCD and then 2 times 0007");
    }

    #[test]
    fn a_mismatch_shows_input_and_both_answers() {
        let side =
            |code| Side { answer: Answer { code, place: 1, count: 8 }, slice: vec![code as u16] };
        let mismatch = Mismatch {
            call: "read",
            input: vec![("table", hex(&[77]))],
            one: side(0),
            other: side(1),
        };
        let text = mismatch.to_string();
        for part in ["read", "table: 4D", "0 1 8", "1 1 8", "at number 0"] {
            assert!(text.contains(part), "{part} in {text}");
        }
    }
}
