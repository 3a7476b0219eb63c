//! The machinery itself: the reference agrees with the reference, and the input
//! is such that every answer of document 01 comes up (22 can't: no height passes
//! the count).

use differential::{fixed, rounds, Pair, Reference};

#[test]
fn the_reference_agrees_with_itself_and_every_answer_comes_up() {
    let mut pair = Pair::new(&Reference, &Reference);
    assert!(rounds(&mut pair, 1, 500).is_ok());
    let table = 2..=12;
    let words = 13..=15;
    let read = [0, 1].into_iter().chain(table.clone()).chain(words.clone()).chain([16]);
    let tree = [0].into_iter().chain(table.clone()).chain(words).chain(17..=19);
    let sentence = [0].into_iter().chain(table).chain(20..=21);
    for code in read {
        assert!(pair.tally.contains_key(&("read", code)), "read {code}");
    }
    for code in tree {
        assert!(pair.tally.contains_key(&("tree", code)), "tree {code}");
    }
    for code in sentence {
        assert!(pair.tally.contains_key(&("sentence", code)), "sentence {code}");
    }
}

#[test]
fn the_reference_agrees_with_itself_on_the_fixed_cases() {
    assert!(fixed(&mut Pair::new(&Reference, &Reference)).is_ok());
}
