//! Making things wrong: tables, words, tree lists and charts.

use crate::chance::Chance;

/// How many numbers a chart's record has.
const RECORD: usize = 12;

/// A table with one to three small damages.
pub fn table(table: &[u8], chance: &mut Chance) -> Vec<u8> {
    let mut table = table.to_vec();
    for _ in 0..chance.pick(&[1, 1, 1, 2, 3]) {
        one_damage(&mut table, chance);
    }
    table
}

fn one_damage(table: &mut Vec<u8>, chance: &mut Chance) {
    if table.is_empty() {
        return table.push(b'M');
    }
    let at = chance.below(table.len());
    match chance.below(12) {
        0 => table.truncate(at),
        1 => table.extend_from_within(at..),
        2 => table.push(chance.number() as u8),
        3 => table.insert(at, chance.number() as u8),
        4 => {
            table.remove(at);
        }
        5 | 6 => table[at] = chance.number() as u8,
        7 => table[at] = 0,
        8 => table[at] = table[at].wrapping_sub(1),
        9 | 10 => table[at] = table[at].wrapping_add(1),
        _ => table.swap(at, chance.below(at + 1)),
    }
}

/// Words, as bytes, that are odd in number, zero, or too many (or two of these).
pub fn words(words: &[u8], chance: &mut Chance) -> Vec<u8> {
    let mut words = words.to_vec();
    if chance.once_in(3) {
        let length = chance.from_to(127, 133);
        words.resize(length, 9);
    }
    if chance.once_in(2) {
        words.push(7);
    }
    if chance.once_in(2) && words.len() > 1 {
        let at = 2 * chance.below(words.len() / 2);
        words[at..at + 2].fill(0);
    }
    words
}

/// A tree list with one or two small damages.
pub fn list(list: &[u16], functions: &[u16], chance: &mut Chance) -> Vec<u16> {
    let mut list = list.to_vec();
    for _ in 0..chance.from_to(1, 2) {
        let at = chance.from_to(0, list.len());
        let function = if chance.once_in(4) || functions.is_empty() {
            chance.number() as u16
        } else {
            chance.pick(functions)
        };
        match chance.below(5) {
            0 => list.truncate(at),
            1 if at < list.len() => list[at] = function,
            2 if at < list.len() => {
                list.remove(at);
            }
            3 if at < list.len() => list.swap(at, 0),
            _ => list.insert(at, function),
        }
    }
    list
}

/// A chart with one or two small damages in its first `count` records.
pub fn chart(chart: &[u16], count: usize, chance: &mut Chance) -> Vec<u16> {
    let mut chart = chart.to_vec();
    if count == 0 {
        return chart;
    }
    for _ in 0..chance.pick(&[1, 1, 2]) {
        let (one, other) = (chance.below(count), chance.below(count));
        match chance.below(11) {
            0 => swap_records(&mut chart, one, other),
            1 => chart.copy_within(other * RECORD..(other + 1) * RECORD, one * RECORD),
            2 => move_range(&mut chart, one, chance),
            3 => raise_heights(&mut chart, one, count, chance),
            _ => change_number(&mut chart, one * RECORD + chance.below(RECORD), count, chance),
        }
    }
    chart
}

fn swap_records(chart: &mut [u16], one: usize, other: usize) {
    for number in 0..RECORD {
        chart.swap(one * RECORD + number, other * RECORD + number);
    }
}

/// Moves a range a word to the right, or makes an empty one stand elsewhere.
fn move_range(chart: &mut [u16], record: usize, chance: &mut Chance) {
    let at = record * RECORD + 3 + 2 * chance.below(3);
    let step = chance.from_to(1, 2) as u16;
    chart[at] = chart[at].wrapping_add(step);
    chart[at + 1] = chart[at + 1].wrapping_add(step);
}

/// Gives a record's first daughter any height, and the record the one after it,
/// which there may not be.
fn raise_heights(chart: &mut [u16], record: usize, count: usize, chance: &mut Chance) {
    let daughter = chart[record * RECORD + 9] as usize;
    let height = chance.pick(&[0, 1, 65_534, 65_535]);
    if daughter < count {
        chart[daughter * RECORD + 2] = height;
        chart[record * RECORD + 2] = height.wrapping_add(1);
    }
}

fn change_number(chart: &mut [u16], at: usize, count: usize, chance: &mut Chance) {
    chart[at] = match chance.below(8) {
        0 => 0,
        1 => 65_535,
        2 => chart[at].wrapping_sub(1),
        3 | 4 => chart[at].wrapping_add(1),
        5 => chance.below(count) as u16,
        6 => chance.below(9) as u16,
        _ => chance.number() as u16,
    };
}
