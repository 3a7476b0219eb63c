//! The tree writer and its check of lent charts: the examples of READINGS.md,
//! "Tree writer", and one case for each condition of code 17.

mod common;
use common::*;

/// AMB's chart for 9 9: (0,1), (0,2), (1,2).
const NINES: [[u16; 12]; 3] = [
    [1, 2, 1, 0, 1, 0, 0, 0, 0, 0, 0, 0],
    [1, 1, 2, 0, 2, 0, 0, 0, 0, 0, 2, 0],
    [1, 2, 1, 1, 2, 0, 0, 0, 0, 0, 0, 0],
];

fn answer_for(chart: &[[u16; 12]], count: usize, root: usize) -> [u64; 3] {
    tree_into(&amb(), &[9, 9], &chart.concat(), (count, root), 9).0
}

/// The answer when one number of `NINES` is another.
fn changed(place: usize, index: usize, number: u16) -> [u64; 3] {
    let mut chart = NINES;
    chart[place][index] = number;
    answer_for(&chart, 3, 1)
}

#[test]
fn the_readers_own_chart_passes() {
    assert_eq!(reading(&amb(), &[9, 9]).chart[..36], NINES.concat());
    assert_eq!(answer_for(&NINES, 3, 1), [0, 0, 3]);
}

#[test]
fn a_record_is_judged_by_its_daughters_numbers_as_they_stand() {
    assert_eq!(changed(2, 1, 77), [17, 2, 0]);
}

#[test]
fn each_condition_of_17() {
    assert_eq!(changed(0, 0, 2), [17, 0, 0], "another category");
    assert_eq!(changed(0, 1, 0), [17, 0, 0], "function 0");
    assert_eq!(changed(0, 2, 2), [17, 0, 0], "height without daughters");
    assert_eq!(changed(1, 2, 3), [17, 1, 0], "height with daughters");
    assert_eq!(changed(0, 4, 2), [17, 0, 0], "not the words of the function");
    assert_eq!(changed(0, 5, 1), [17, 0, 0], "an unused range");
    assert_eq!(changed(0, 9, 1), [17, 0, 0], "an unused place");
    assert_eq!(changed(1, 11, 1), [17, 1, 0], "an unused third place");
    assert_eq!(changed(1, 10, 3), [17, 1, 0], "a daughter not below the count");
    assert_eq!(changed(1, 10, 0), [17, 1, 0], "daughters that do not join");
}

#[test]
fn counts_and_roots() {
    assert_eq!(answer_for(&NINES, 4, 1), [17, 0, 0]);
    assert_eq!(answer_for(&NINES, 2001, 1), [17, 0, 0]);
    assert_eq!(answer_for(&NINES, 2, 0), [17, 1, 0]);
    assert_eq!(answer_for(&NINES, 3, 3), [18, 3, 0]);
    assert_eq!(answer_for(&NINES, 3, usize::MAX), [18, usize::MAX as u64, 0]);
    assert_eq!(answer_for(&NINES, 0, 0), [18, 0, 0]);
    assert_eq!(answer_for(&[], 0, 5), [18, 5, 0]);
    assert_eq!(answer_for(&[], 1, 0), [17, 0, 0]);
}

#[test]
fn a_count_above_2000_goes_before_the_records() {
    let chart = vec![LENT; 12 * 2001];
    assert_eq!(tree_into(&amb(), &[9, 9], &chart, (2001, 0), 9).0, [17, 0, 0]);
}

#[test]
fn numbers_past_the_count_are_not_looked_at() {
    let mut chart = NINES.concat();
    chart.extend([LENT; 17]);
    assert_eq!(tree_into(&amb(), &[9, 9], &chart, (3, 1), 9).0, [0, 0, 3]);
}

#[test]
fn a_known_function_of_another_category() {
    let mut chart = reading(&copy(), &[7, 7]).chart;
    chart[2 * 12 + 1] = 10;
    assert_eq!(tree_into(&copy(), &[7, 7], &chart, (8, 1), 9).0, [17, 2, 0]);
}

#[test]
fn a_daughter_of_another_category() {
    // COPY's second record wants a phrase of category 2 at its daughter's place.
    let mut chart = reading(&copy(), &[7, 7]).chart;
    chart[12 + 9] = 0;
    assert_eq!(tree_into(&copy(), &[7, 7], &chart, (8, 1), 9).0, [17, 1, 0]);
}

#[test]
fn a_daughter_may_stand_after_its_parent_but_not_below_itself() {
    let table = tables::table("start A1\n1\n1 A1(X1.1) -> A1(X1.1)\n2 A1(7) ->");
    let itself = [1, 1, 2, 0, 1, 0, 0, 0, 0, 0, 0, 0];
    assert_eq!(tree_into(&table, &[7], &itself, (1, 0), 9).0, [17, 0, 0]);
}

#[test]
fn a_foreign_chart_need_not_have_least_heights() {
    let table = tables::table("start A1\n1 1\n1 A1(X1.1) -> A2(X1.1)\n2 A2(7) ->\n3 A1(7) ->");
    let chart = [[1, 1, 2, 0, 1, 0, 0, 0, 0, 1, 0, 0], [2, 2, 1, 0, 1, 0, 0, 0, 0, 0, 0, 0]];
    let (answer, tree) = tree_into(&table, &[7], &chart.concat(), (2, 0), 3);
    assert_eq!((answer, tree), ([0, 0, 2], vec![1, 2, LENT]));
}

#[test]
fn a_wrong_unused_range_spoils_only_its_own_record() {
    let mut chart = NINES;
    chart[2][7] = 5;
    assert_eq!(answer_for(&chart, 3, 1), [17, 2, 0]);
}

#[test]
fn a_wrong_used_range_spoils_its_parent_too() {
    let mut chart = NINES;
    chart[2][4] = 9;
    chart[1][4] = 9;
    assert_eq!(answer_for(&chart, 3, 1), [17, 1, 0]);
    // (1, 1) is no range of a sentence, though it would join.
    let table = tables::table("start A1\n1 1\n1 A1(9 X1.1) -> A2(X1.1)\n2 A2() ->");
    let chart = [[1, 1, 2, 0, 1, 0, 0, 0, 0, 1, 0, 0], [2, 2, 1, 1, 1, 0, 0, 0, 0, 0, 0, 0]];
    assert_eq!(tree_into(&table, &[9], &chart.concat(), (2, 0), 9).0, [17, 0, 0]);
}

#[test]
fn a_daughter_of_height_65535_leaves_no_height() {
    for height in [0, 1, 65535] {
        let mut chart = NINES;
        chart[2][2] = 65535;
        chart[1][2] = height;
        assert_eq!(answer_for(&chart, 3, 1), [17, 1, 0]);
    }
}

#[test]
fn of_equal_neighbours_the_later_is_bad() {
    let chart = [NINES[0], NINES[0]];
    assert_eq!(answer_for(&chart, 2, 0), [17, 1, 0]);
    let chart = [NINES[2], NINES[0]];
    assert_eq!(answer_for(&chart, 2, 0), [17, 1, 0]);
}

#[test]
fn the_room_is_the_slice_or_255() {
    let table = doubling(8);
    let chart = reading(&table, &[]).chart;
    let count = reading(&table, &[]).answer[2] as usize;
    // Category 8 is a tree of 255 nodes, category 9 one of 511.
    assert_eq!(tree_into(&table, &[], &chart, (count, 7), 300).0, [0, 0, 255]);
    assert_eq!(tree_into(&table, &[], &chart, (count, 7), 255).0, [0, 0, 255]);
    assert_eq!(tree_into(&table, &[], &chart, (count, 7), 254).0, [19, 254, 0]);
    assert_eq!(tree_into(&table, &[], &chart, (count, 8), 600).0, [19, 255, 0]);
    assert_eq!(tree_into(&table, &[], &chart, (count, 0), 0).0, [19, 0, 0]);
}

#[test]
fn shared_daughters_do_not_run_away() {
    let table = doubling(60);
    let chart = reading(&table, &[]).chart;
    assert_eq!(tree_into(&table, &[], &chart, (61, 60), 300).0, [19, 255, 0]);
}

/// Category 1 is empty; each further one is two of the category before it.
fn doubling(steps: usize) -> Vec<u8> {
    let mut text = format!("start A1\n{}\n1 A1() ->\n", ["1"].repeat(steps + 1).join(" "));
    for k in 1..=steps {
        text += &format!("{} A{}(X1.1 X2.1) -> A{k}(X1.1) A{k}(X2.1)\n", k + 1, k + 1);
    }
    tables::table(&text)
}

#[test]
fn table_and_words_are_judged_first() {
    let mut tree = [LENT; 3];
    let answer = reference::write_tree(&amb()[..20], &[9], &[], 7, 7, &mut tree);
    assert_eq!(numbers(answer), [2, 20, 0]);
    let answer = reference::write_tree(&amb(), &[9], &[], 7, 7, &mut tree);
    assert_eq!(numbers(answer), [14, 0, 0]);
    assert_eq!(tree, [LENT; 3]);
}
