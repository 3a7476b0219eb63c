//! The files in `tables/` are what their clauses say, and no file is without.

use std::collections::BTreeSet;
use std::path::{Path, PathBuf};

use tables::{Rule, Symbol};

fn folder() -> PathBuf {
    Path::new(env!("CARGO_MANIFEST_DIR")).join("../../tables")
}

#[test]
fn each_file_is_what_is_built() {
    for (name, text) in tables::worked::FILES {
        let bytes = std::fs::read(folder().join(name)).expect("cargo run -p tables writes it");
        assert_eq!(bytes, tables::table(text), "{name}");
    }
}

#[test]
fn every_table_file_is_built_here() {
    let known: Vec<&str> = tables::worked::FILES.iter().map(|(name, _)| *name).collect();
    for entry in std::fs::read_dir(folder()).expect("the folder tables/ is there") {
        let name = entry.expect("its entries can be read").file_name();
        let name = name.to_str().expect("names are plain");
        assert!(!name.ends_with(".mcg") || known.contains(&name), "{name}");
    }
}

/// The words that stand in a table's rules.
fn words_of(text: &str) -> BTreeSet<u16> {
    let rules: Vec<Rule> = tables::clause::describe(text).rules;
    let symbols = rules.iter().flat_map(|rule| rule.rows.iter().flatten());
    let words = symbols.filter_map(|symbol| match symbol {
        Symbol::Word(word) => Some(*word),
        Symbol::Part(..) => None,
    });
    words.collect()
}

#[test]
fn a_words_file_names_exactly_the_words_of_its_table() {
    let mut found = Vec::new();
    for (name, text) in tables::worked::FILES {
        let file = folder().join(name).with_extension("words");
        let Ok(lines) = std::fs::read_to_string(&file) else { continue };
        let numbers = lines.lines().map(|line| line.split(' ').next().unwrap_or("").parse());
        let numbers: Result<BTreeSet<u16>, _> = numbers.collect();
        assert_eq!(numbers, Ok(words_of(text)), "{}", file.display());
        found.push(name);
    }
    assert_eq!(found, ["abc.mcg", "figure-3-1.mcg", "gxx.mcg", "verb.mcg"]);
}

#[test]
fn the_readme_speaks_of_each_file() {
    let readme = std::fs::read_to_string(folder().join("README.md")).expect("it is there");
    for (name, _) in tables::worked::FILES {
        assert!(readme.contains(name), "{name}");
    }
}

/// The programs of the gate read copies of these files.
#[test]
fn the_programs_have_the_same_tables() {
    let crates = folder().join("../crates");
    let copies = [
        ("listing/data/board.mcg", "copy.mcg"),
        ("vectors/data/amb.mcg", "amb.mcg"),
        ("vectors/data/copy.mcg", "copy.mcg"),
        ("vectors/data/abc.mcg", "abc.mcg"),
        ("vectors/data/figure-3-1.mcg", "figure-3-1.mcg"),
        ("vectors/data/gxx.mcg", "gxx.mcg"),
    ];
    for (copy, name) in copies {
        let bytes = std::fs::read(crates.join(copy)).expect("each program has its data");
        assert_eq!(bytes, std::fs::read(folder().join(name)).expect("it is there"), "{copy}");
    }
}
