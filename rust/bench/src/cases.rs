//! What the two readers are compared on: AMB with nines and COPY with sevens.

use tables::worked::{AMB, COPY};

/// The allowance, as the request says it.
pub const ALLOWANCE: usize = 2000;

/// A table and a sentence.
pub struct Case {
    pub table_name: &'static str,
    pub number_of_words: usize,
    pub table: Vec<u8>,
    pub words: Vec<u8>,
}

/// What a reader says of a case.
#[derive(Clone, Copy, PartialEq, Eq, Debug)]
pub enum Said {
    Full,
    Items(usize),
}

/// AMB with 10 to 60 nines, COPY with 10 to 40 sevens.
pub fn cases() -> Vec<Case> {
    let nines = (1..=6).map(|tens| case("AMB", AMB, 9, 10 * tens));
    let sevens = (1..=4).map(|tens| case("COPY", COPY, 7, 10 * tens));
    nines.chain(sevens).collect()
}

fn case(table_name: &'static str, text: &str, word: u16, number_of_words: usize) -> Case {
    Case {
        table_name,
        number_of_words,
        table: tables::table(text),
        words: tables::words(&vec![word; number_of_words]),
    }
}

/// The plain reader on a case.
pub fn plain(case: &Case) -> Said {
    match plain::items(&case.table, &case.words, ALLOWANCE) {
        plain::Found::Full => Said::Full,
        plain::Found::Items(count) => Said::Items(count),
        plain::Found::Refused(refusal) => panic!("the worked tables are valid: {refusal:?}"),
    }
}

#[cfg(test)]
mod tests {
    use super::*;

    #[test]
    fn the_plain_reader_on_each_case() {
        let sizes: Vec<(&str, usize, Said)> = cases()
            .iter()
            .map(|case| (case.table_name, case.number_of_words, plain(case)))
            .collect();
        assert_eq!(sizes[0], ("AMB", 10, Said::Items(55)));
        assert_eq!(sizes[5], ("AMB", 60, Said::Items(1830)));
        assert_eq!(sizes[9], ("COPY", 40, Said::Full));
        assert_eq!(sizes.len(), 10);
    }
}
