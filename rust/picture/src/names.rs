//! The words file beside a table: `verb.words` for `verb.mcg`. A line each: the
//! word's number, a space, the word. The reader itself knows numbers alone.

use std::collections::HashMap;
use std::path::{Path, PathBuf};

/// The words of a table, both ways. Without a words file there are none.
#[derive(Default)]
pub struct Names {
    /// The file, as it is named to people.
    file: String,
    /// In the file's order, for naming the nearest ones.
    all: Vec<(u16, String)>,
    by_number: HashMap<u16, String>,
    by_word: HashMap<String, u16>,
}

/// How many of the nearest words are named where a word is unknown.
const NEAREST: usize = 3;

impl Names {
    /// The words beside a table file; none, if there is no such file.
    pub fn beside(table: &Path) -> Result<Names, String> {
        let file = words_file(table);
        match std::fs::read(&file) {
            Ok(bytes) => Names::of(&file.display().to_string(), &bytes),
            Err(why) if why.kind() == std::io::ErrorKind::NotFound => {
                Ok(Names { file: file.display().to_string(), ..Names::default() })
            }
            Err(why) => Err(format!("{} can't be read: {why}.", file.display())),
        }
    }

    /// The words that a file's bytes list.
    pub fn of(file: &str, bytes: &[u8]) -> Result<Names, String> {
        let text = std::str::from_utf8(bytes).map_err(|_| format!("{file} is no text (UTF-8)."))?;
        let mut names = Names { file: file.to_string(), ..Names::default() };
        for (index, line) in text.lines().enumerate() {
            names.add(line).map_err(|why| format!("{file}, line {}: {why}.", index + 1))?;
        }
        Ok(names)
    }

    fn add(&mut self, line: &str) -> Result<(), String> {
        let mut fields = line.split_whitespace();
        let (Some(number), Some(word), None) = (fields.next(), fields.next(), fields.next()) else {
            return Err("a line has a number, a space and a word".to_string());
        };
        let number = number_of(number).filter(|&number| number != 0);
        let number = number.ok_or("the number of a word is 1 to 65535")?;
        if is_digits(word) {
            return Err(format!("{word} would be taken for a number"));
        }
        if self.by_number.insert(number, word.to_string()).is_some() {
            return Err(format!("{number} has a word already"));
        }
        if self.by_word.insert(word.to_string(), number).is_some() {
            return Err(format!("{word} has a number already"));
        }
        self.all.push((number, word.to_string()));
        Ok(())
    }

    /// The number that is meant: a word of the file, or a number as it stands.
    pub fn number(&self, said: &str) -> Result<u16, String> {
        if is_digits(said) {
            let none = || format!("{said} is no word: the greatest number of a word is 65535.");
            return number_of(said).ok_or_else(none);
        }
        self.by_word.get(said).copied().ok_or_else(|| self.unknown(said))
    }

    /// The word of a number; the number itself, if it has none.
    pub fn word(&self, number: u16) -> String {
        self.by_number.get(&number).cloned().unwrap_or_else(|| number.to_string())
    }

    fn unknown(&self, said: &str) -> String {
        if self.all.is_empty() {
            return format!("{said} is no number, and no words file {} gives it one.", self.file);
        }
        format!("{said} is no word of {}. The nearest are: {}.", self.file, self.nearest(said))
    }

    /// The words that take the fewest changes, the first of the file first.
    fn nearest(&self, said: &str) -> String {
        let mut words: Vec<&str> = self.all.iter().map(|(_, word)| &word[..]).collect();
        words.sort_by_key(|word| changes(said, word));
        words.truncate(NEAREST);
        words.join(", ")
    }
}

fn words_file(table: &Path) -> PathBuf {
    table.with_extension("words")
}

fn is_digits(text: &str) -> bool {
    !text.is_empty() && text.bytes().all(|byte| byte.is_ascii_digit())
}

fn number_of(text: &str) -> Option<u16> {
    text.parse().ok().filter(|_| is_digits(text))
}

/// The fewest letters to change, put in or leave out, to come from one word to
/// the other.
fn changes(from: &str, to: &str) -> usize {
    let to: Vec<char> = to.chars().collect();
    let mut row: Vec<usize> = (0..=to.len()).collect();
    for (number, letter) in from.chars().enumerate() {
        let mut corner = row[0];
        row[0] = number + 1;
        for column in 1..=to.len() {
            let kept = corner + usize::from(to[column - 1] != letter);
            corner = row[column];
            row[column] = kept.min(row[column] + 1).min(row[column - 1] + 1);
        }
    }
    row[to.len()]
}

#[cfg(test)]
mod tests {
    use super::*;

    fn names(text: &str) -> Result<Names, String> {
        Names::of("verb.words", text.as_bytes())
    }

    #[test]
    fn words_go_both_ways_and_numbers_stand_as_they_are() {
        let names = names("1 we\n3 pick\n").expect("a words file");
        assert_eq!(
            (names.number("pick"), names.number("3"), names.number("0012")),
            (Ok(3), Ok(3), Ok(12))
        );
        assert_eq!((names.word(3), names.word(12)), ("pick".to_string(), "12".to_string()));
    }

    #[test]
    fn an_unknown_word_names_the_nearest_ones() {
        let names = names("1 we\n7 the\n8 child\n9 mother\n2 they\n").expect("a words file");
        let why = names.number("chidl").expect_err("no such word");
        assert!(why.contains("The nearest are: child,"), "{why}");
        let why = names.number("thee").expect_err("no such word");
        assert!(why.contains("The nearest are: the, they, we."), "{why}");
    }

    #[test]
    fn without_a_words_file_only_numbers_are_words() {
        let names = Names::beside(Path::new("nowhere/copy.mcg")).expect("no file is no fault");
        assert_eq!(names.number("7"), Ok(7));
        assert!(names.number("seven").expect_err("no word").contains("nowhere/copy.words"));
        for wrong in ["65536", "-1", "+1", "", "7x"] {
            assert!(names.number(wrong).is_err(), "{wrong}");
        }
    }

    #[test]
    fn a_line_that_is_wrong_is_named() {
        for (text, why) in [
            ("1 we\n2\n", "line 2: a line has"),
            ("1 we all\n", "line 1: a line has"),
            ("0 we\n", "1 to 65535"),
            ("65536 we\n", "1 to 65535"),
            ("1 we\n1 they\n", "line 2: 1 has a word already"),
            ("1 we\n2 we\n", "line 2: we has a number already"),
            ("1 12\n", "12 would be taken for a number"),
        ] {
            let said = names(text).err().expect("refused");
            assert!(said.contains(why), "{said}");
        }
        assert!(Names::of("verb.words", &[0xFF]).is_err());
    }

    #[test]
    fn changes_are_counted_as_letters_put_in_left_out_or_changed() {
        for (from, to, number) in [
            ("", "", 0),
            ("we", "we", 0),
            ("", "we", 2),
            ("pick", "picks", 1),
            ("sunday", "saturday", 3),
        ] {
            assert_eq!((changes(from, to), changes(to, from)), (number, number));
        }
    }
}
