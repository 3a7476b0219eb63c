//! Document 01's worked cases through the wrapper: each named answer is met.

use board::{read, write_sentence, write_tree, Reading, Refusal, SentenceWriting, TreeWriting};
use tables::worked::{AMB, COPY};
use tables::{table, words};

fn reading(table: &[u8], sentence: &[u16], allowance: usize) -> (Reading, Vec<u16>) {
    let mut chart = vec![0xABCD; 24_000];
    let reading = read(table, &words(sentence), allowance, &mut chart);
    (reading, chart)
}

#[test]
fn yes_with_the_listing() {
    let (yes, chart) = reading(&table(COPY), &[7, 7], 0);
    assert_eq!(yes, Reading::Yes { goal: 1, items: 8 });
    assert_eq!(chart[12..24], [1, 10, 3, 0, 2, 0, 0, 0, 0, 4, 0, 0]);
    assert_eq!(chart[84..96], [2, 21, 2, 1, 2, 1, 2, 0, 0, 2, 0, 0]);
    assert!(chart[96..].iter().all(|&number| number == 0));
}

#[test]
fn no_full_and_refused() {
    assert_eq!(reading(&table(COPY), &[7, 8], 0).0, Reading::No { items: 5 });
    assert_eq!(reading(&table(AMB), &[], 0).0, Reading::No { items: 0 });
    let (full, chart) = reading(&table(AMB), &[9; 3], 5);
    assert_eq!(full, Reading::Full { room: 5 });
    assert!(chart.iter().all(|&number| number == 0));
    let (refused, chart) = reading(&table(COPY)[..66], &[7, 7], 0);
    assert_eq!(refused, Reading::Refused(Refusal::Short { table_length: 66 }));
    assert!(chart.iter().all(|&number| number == 0xABCD));
}

#[test]
fn empty_slices_may_be_lent() {
    assert_eq!(read(&[], &[], 0, &mut []), Reading::Refused(Refusal::Short { table_length: 0 }));
    assert_eq!(read(&table(AMB), &[], 0, &mut []), Reading::No { items: 0 });
    let refused = write_sentence(&table(AMB), &[], &mut []);
    assert_eq!(refused, SentenceWriting::TreeList { node: 0 });
    let refused = write_tree(&table(AMB), &[], &[], 0, 0, &mut []);
    assert_eq!(refused, TreeWriting::Place { root: 0 });
}

#[test]
fn the_tree_of_three_nines() {
    let (_, chart) = reading(&table(AMB), &[9; 3], 6);
    let mut tree = [0xABCD; 6];
    let written = write_tree(&table(AMB), &words(&[9; 3]), &chart, 6, 2, &mut tree);
    assert_eq!(written, TreeWriting::Written { nodes: 5 });
    assert_eq!(tree, [1, 2, 1, 2, 2, 0xABCD]);
    let refused = write_tree(&table(AMB), &words(&[9; 3]), &chart, 6, 2, &mut tree[..4]);
    assert_eq!(refused, TreeWriting::TreeRoom { room: 4 });
    let refused = write_tree(&table(AMB), &words(&[9; 2]), &chart, 6, 2, &mut tree);
    assert_eq!(refused, TreeWriting::Chart { record: 2 });
}

#[test]
fn the_sentence_of_a_list() {
    let mut text = [0xABCD; 4];
    let written = write_sentence(&table(AMB), &[1, 2, 1, 2, 2], &mut text);
    assert_eq!(written, SentenceWriting::Written { words: 3 });
    assert_eq!(text, [9, 9, 9, 0xABCD]);
    assert_eq!(
        write_sentence(&table(AMB), &[1, 2], &mut text),
        SentenceWriting::TreeList { node: 2 }
    );
    let refused = write_sentence(&table(AMB), &[1, 2, 2], &mut text[..1]);
    assert_eq!(refused, SentenceWriting::TextRoom { needed: 2 });
}
