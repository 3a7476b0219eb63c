//! The plain reader counts what document 01's worked cases and the reference count.

use plain::{items, Found};
use reference::{Code, Refusal};
use tables::worked::{ABC, AMB, COPY, FIGURE_3_1, VERB};

fn count(text: &str, words: &[u16], limit: usize) -> Found {
    items(&tables::table(text), &tables::words(words), limit)
}

#[test]
fn the_worked_cases() {
    assert_eq!(count(COPY, &[7, 7], 2000), Found::Items(8));
    assert_eq!(count(COPY, &[], 2000), Found::Items(2));
    assert_eq!(count(COPY, &[7, 8], 2000), Found::Items(5));
    assert_eq!(count(AMB, &[], 2000), Found::Items(0));
    assert_eq!(count(AMB, &[9; 3], 6), Found::Items(6));
    assert_eq!(count(AMB, &[9; 3], 5), Found::Full);
    assert_eq!(count(AMB, &[9; 62], 2000), Found::Items(1953));
    assert_eq!(count(AMB, &[9; 63], 2000), Found::Full);
}

#[test]
fn as_many_items_as_the_reference() {
    let sentences: [&[u16]; 5] =
        [&[1, 2, 3, 4], &[1, 1, 2, 2, 3, 3], &[1, 3, 7, 8, 4], &[7, 8, 7, 8], &[9, 7, 9]];
    for text in [COPY, AMB, ABC, FIGURE_3_1, VERB] {
        for words in sentences {
            let mut chart = vec![0; 24_000];
            let answer =
                reference::read(&tables::table(text), &tables::words(words), 0, &mut chart);
            assert_eq!(count(text, words, 2000), Found::Items(answer.count as usize));
        }
    }
}

#[test]
fn rows_of_words_stand_wherever_their_words_stand() {
    let text = "start A1\n1 3\n1 A1(X1.1 X1.2 X1.3) -> A2(X1.1, X1.2, X1.3)\n2 A2(7, , 7 8) ->";
    assert_eq!(count(text, &[7, 8, 7, 8], 2000), Found::Items(4));
    assert_eq!(count(text, &[7, 7, 8], 2000), Found::Items(2 + 1));
}

#[test]
fn refusals_are_said() {
    let found = items(&tables::table(AMB)[..8], &[], 2000);
    assert_eq!(found, Found::Refused(Refusal::new(Code::Short, 8)));
    let found = items(&tables::table(AMB), &[9], 2000);
    assert_eq!(found, Found::Refused(Refusal::new(Code::Odd, 0)));
}
