//! Clause notation: a table as text, one rule a line. The first line names the
//! start, the second the dimensions:
//!
//! ```text
//! start A1
//! 1 2
//! 10 A1(X1.1 X1.2) -> A2(X1.1, X1.2)
//! 20 A2(, ) ->
//! ```
//!
//! It is a help for whoever writes tables by hand, so a line that can't be read
//! stops the program with a sentence that shows it.

use crate::description::{Description, Rule, Symbol};

/// The bytes of the table that `text` describes.
pub fn table(text: &str) -> Vec<u8> {
    describe(text).bytes()
}

/// The table that `text` describes. Empty lines and indentation don't count.
pub fn describe(text: &str) -> Description {
    let mut lines = text.lines().map(str::trim).filter(|line| !line.is_empty());
    let first = lines.next().unwrap_or("");
    let start = first.strip_prefix("start A").map(number).unwrap_or_else(|| unread(first));
    let dimensions = lines.next().unwrap_or("").split_whitespace().map(number).collect();
    Description { start, dimensions, rules: lines.map(rule).collect() }
}

fn rule(line: &str) -> Rule {
    let (left, right) = line.split_once("->").unwrap_or_else(|| unread(line));
    let (function, head) = left.trim().split_once(' ').unwrap_or_else(|| unread(line));
    let (category, rows) = phrase(head);
    let daughters = right.split_inclusive(')').map(str::trim).filter(|text| !text.is_empty());
    Rule {
        function: number(function),
        category,
        daughters: daughters.enumerate().map(|(k, text)| daughter(k + 1, text)).collect(),
        rows: rows.split(',').map(row).collect(),
    }
}

/// Takes `A2(7 X1.1, 7)` apart into 2 and `7 X1.1, 7`.
fn phrase(text: &str) -> (u8, &str) {
    let inside = text.trim().strip_prefix('A').and_then(|rest| rest.strip_suffix(')'));
    let (category, rows) =
        inside.and_then(|rest| rest.split_once('(')).unwrap_or_else(|| unread(text));
    (number(category), rows)
}

fn row(text: &str) -> Vec<Symbol> {
    text.split_whitespace().map(symbol).collect()
}

fn symbol(text: &str) -> Symbol {
    match text.strip_prefix('X').and_then(|rest| rest.split_once('.')) {
        Some((daughter, constituent)) => Symbol::Part(number(daughter), number(constituent)),
        None => Symbol::Word(number(text)),
    }
}

/// Daughter `k` must list its own constituents in order, as `A2(X1.1, X1.2)`.
fn daughter(k: usize, text: &str) -> u8 {
    let (category, rows) = phrase(text);
    for (index, part) in rows.split(',').enumerate() {
        let wanted = format!("X{k}.{}", index + 1);
        assert_eq!(part.trim(), wanted, "daughter {k} in clause notation: {text}");
    }
    category
}

fn number<N: std::str::FromStr>(text: &str) -> N {
    text.trim().parse().unwrap_or_else(|_| unread(text))
}

fn unread<T>(text: &str) -> T {
    panic!("this is not clause notation: {text:?}")
}

#[cfg(test)]
mod tests {
    use super::*;
    use crate::description::Symbol::{Part, Word};

    #[test]
    fn reads_a_rule_with_words_and_parts() {
        let read = rule("21 A2(7 X1.1, X2.1 7) -> A2(X1.1) A3(X2.1)");
        let rows = vec![vec![Word(7), Part(1, 1)], vec![Part(2, 1), Word(7)]];
        assert_eq!(read, Rule { function: 21, category: 2, daughters: vec![2, 3], rows });
    }

    #[test]
    fn an_empty_row_is_nothing() {
        assert_eq!(rule("20 A2(, ) ->").rows, vec![vec![], vec![]]);
        assert_eq!(rule("20 A1() ->").rows, vec![Vec::<Symbol>::new()]);
    }

    #[test]
    #[should_panic(expected = "daughter 1")]
    fn refuses_a_daughter_out_of_order() {
        rule("1 A1(X1.1 X1.2) -> A2(X1.2, X1.1)");
    }

    #[test]
    #[should_panic(expected = "not clause notation")]
    fn refuses_what_is_no_number() {
        rule("1 A1(seven) ->");
    }
}
