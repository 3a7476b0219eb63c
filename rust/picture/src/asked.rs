//! What the program is asked: a table, words, an allowance.

use std::path::PathBuf;

/// What the program is, and its exit codes.
pub const HELP: &str = include_str!("help.txt");

/// A table file, words as they are typed, and an allowance.
#[derive(PartialEq, Debug)]
pub struct Asked {
    pub table: PathBuf,
    pub words: Vec<String>,
    pub allowance: usize,
}

pub fn wants_help(arguments: &[String]) -> bool {
    matches!(arguments.first().map(String::as_str), Some("--help" | "-h"))
}

impl Asked {
    /// What the arguments say, or the sentence that says what they lack.
    pub fn of(arguments: &[String]) -> Result<Asked, String> {
        let (allowance, rest) = match arguments {
            [option, number, rest @ ..] if option == "--allowance" => (allowance(number)?, rest),
            [option, ..] if option.starts_with('-') => {
                return Err(format!("There is no {option} like this; --help says what there is."))
            }
            _ => (0, arguments),
        };
        let (table, words) = rest.split_first().ok_or(
            "Please say which table and which words, as in: ./read tables/copy.mcg 7 8 7 8",
        )?;
        Ok(Asked { table: PathBuf::from(table), words: words.to_vec(), allowance })
    }
}

fn allowance(number: &str) -> Result<usize, String> {
    let number = number.parse::<usize>().ok();
    number.ok_or("After --allowance comes a number of phrases, as in: --allowance 500".to_string())
}

#[cfg(test)]
mod tests {
    use super::*;

    fn asked(arguments: &str) -> Result<Asked, String> {
        let arguments: Vec<String> = arguments.split_whitespace().map(str::to_string).collect();
        Asked::of(&arguments)
    }

    #[test]
    fn a_table_its_words_and_an_allowance() {
        let words = vec!["7".to_string(), "--allowance".to_string()];
        let table = PathBuf::from("t.mcg");
        assert_eq!(asked("t.mcg 7 --allowance"), Ok(Asked { table, words, allowance: 0 }));
        let read = asked("--allowance 5 t.mcg").expect("a table and no words");
        assert_eq!((read.allowance, read.words.len()), (5, 0));
    }

    #[test]
    fn wrong_use_is_said() {
        for wrong in ["", "--allowance", "--allowance 5", "--allowance x t.mcg", "--loud t.mcg"] {
            assert!(asked(wrong).is_err(), "{wrong}");
        }
    }

    #[test]
    fn help_names_each_exit_code() {
        for code in 0..=4 {
            assert!(HELP.contains(&format!("\n  {code}  ")));
        }
    }
}
