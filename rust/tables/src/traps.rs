//! Tables of 254 rules of one kind, on which a reader that tries too much takes
//! hours. Each has one rule more for the word 9, and, where the kind has more
//! than one constituent, one more for the start.

use crate::clause::table;

/// A trap: what it is, its bytes, and how many nines it is read with.
pub struct Trap {
    pub name: &'static str,
    pub table: Vec<u8>,
    pub nines: usize,
}

/// The five traps.
pub fn traps() -> Vec<Trap> {
    vec![
        trap("two daughters side by side", 62, one_row("X1.1 X2.1", 2)),
        trap("three daughters side by side", 62, one_row("X1.1 X2.1 X3.1", 3)),
        trap("three daughters from the right", 62, one_row("X3.1 X2.1 X1.1", 3)),
        trap("two rows, parts crossed", 14, crossed_in_two()),
        trap("three rows, parts crossed", 9, crossed_in_three()),
    ]
}

fn trap(name: &'static str, nines: usize, text: String) -> Trap {
    Trap { name, table: table(&text), nines }
}

fn one_row(row: &str, rank: usize) -> String {
    let daughters: Vec<String> = (1..=rank).map(|k| format!("A1(X{k}.1)")).collect();
    let kind = format!("A1({row}) -> {}", daughters.join(" "));
    format!("start A1\n1\n{}255 A1(9) ->\n", many(&kind))
}

fn crossed_in_two() -> String {
    let kind = "A2(X1.2 X2.2, X2.1 X1.1) -> A2(X1.1, X1.2) A2(X2.1, X2.2)";
    let start = "256 A1(X1.1 X1.2) -> A2(X1.1, X1.2)";
    format!("start A1\n1 2\n{}255 A2(9, 9) ->\n{start}\n", many(kind))
}

fn crossed_in_three() -> String {
    let rows = "X1.1 X2.1 X3.1, X3.2 X1.2 X2.2, X2.3 X3.3 X1.3";
    let daughters: Vec<String> = (1..=3).map(|k| format!("A2(X{k}.1, X{k}.2, X{k}.3)")).collect();
    let kind = format!("A2({rows}) -> {}", daughters.join(" "));
    let start = "256 A1(X1.1 X1.2 X1.3) -> A2(X1.1, X1.2, X1.3)";
    format!("start A1\n1 3\n{}255 A2(9, 9, 9) ->\n{start}\n", many(&kind))
}

/// The kind 254 times, under the functions 1 to 254.
fn many(kind: &str) -> String {
    (1..=254).map(|function| format!("{function} {kind}\n")).collect()
}
