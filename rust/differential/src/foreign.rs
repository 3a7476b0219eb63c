//! Charts that the reader did not make, though all they hold is true: other
//! derivations, with heights that are not least, and parts of charts.

use std::ops::ControlFlow;

use reference::chart::Record;
use reference::combinations::each_sequence;
use reference::item::Item;
use reference::phrase::gives;
use reference::table::Table;

use crate::chance::Chance;

/// The records that stand in a chart.
pub fn records(chart: &[u16], count: usize) -> Vec<Record> {
    (0..count).map(|place| Record::at(chart, place)).collect()
}

/// The numbers of these records.
pub fn numbers(records: &[Record]) -> Vec<u16> {
    records.iter().flat_map(|record| record.numbers()).collect()
}

/// One way to make an item: its place, the function, the daughters' places.
struct Derivation {
    place: usize,
    function: u16,
    daughters: Vec<usize>,
}

/// The same items, each by a derivation that chance finds, none below itself.
pub fn other_derivations(
    table: &Table,
    words: &[u16],
    records: &[Record],
    chance: &mut Chance,
) -> Vec<Record> {
    let items: Vec<Item> = records.iter().map(|record| record.item).collect();
    let mut derivations = all_derivations(table, words, &items);
    chance.shuffle(&mut derivations);
    let mut found: Vec<Option<Record>> = vec![None; items.len()];
    while found.iter().any(|record| record.is_none()) {
        for derivation in &derivations {
            take(derivation, &items, &mut found);
        }
    }
    found.into_iter().flatten().collect()
}

fn all_derivations(table: &Table, words: &[u16], items: &[Item]) -> Vec<Derivation> {
    let mut derivations = Vec::new();
    for rule in &table.rules {
        let _ = each_sequence(rule, items, words, &mut |places, daughters| {
            for item in gives(rule, daughters, words) {
                let place = items.binary_search(&item).expect("all true items are here");
                let (function, daughters) = (rule.function, places.to_vec());
                derivations.push(Derivation { place, function, daughters });
            }
            ControlFlow::Continue(())
        });
    }
    derivations
}

/// Takes the derivation if its item has none yet and its daughters have theirs.
fn take(derivation: &Derivation, items: &[Item], found: &mut [Option<Record>]) {
    if found[derivation.place].is_some() {
        return;
    }
    let heights =
        derivation.daughters.iter().map(|&daughter| found[daughter].map(|record| record.height));
    let Some(heights) = heights.collect::<Option<Vec<u16>>>() else { return };
    let height = 1 + heights.into_iter().max().unwrap_or(0) as usize;
    let item = items[derivation.place];
    let record = Record::new(item, derivation.function, height, &derivation.daughters);
    found[derivation.place] = Some(record);
}

/// Some of the records, with all that stands below them; places are set anew.
pub fn part(table: &Table, records: &[Record], chance: &mut Chance) -> Vec<Record> {
    let mut kept: Vec<bool> = records.iter().map(|_| chance.once_in(4)).collect();
    loop {
        let wanted: Vec<usize> = wanted_below(table, records, &kept);
        if wanted.iter().all(|&place| kept[place]) {
            return renumbered(table, records, &kept);
        }
        wanted.into_iter().for_each(|place| kept[place] = true);
    }
}

/// The daughters' places of all kept records.
fn wanted_below(table: &Table, records: &[Record], kept: &[bool]) -> Vec<usize> {
    let kept = records.iter().zip(kept).filter(|(_, &kept)| kept);
    kept.flat_map(|(record, _)| places(table, record)).collect()
}

fn places(table: &Table, record: &Record) -> Vec<usize> {
    let rank = table.rule(record.function).map_or(0, |rule| rule.rank());
    record.daughters[..rank].iter().map(|&place| place as usize).collect()
}

fn renumbered(table: &Table, records: &[Record], kept: &[bool]) -> Vec<Record> {
    let new_place = |place: usize| kept[..place].iter().filter(|&&kept| kept).count();
    let one = |record: &Record| {
        let daughters: Vec<usize> = places(table, record).into_iter().map(new_place).collect();
        Record::new(record.item, record.function, record.height as usize, &daughters)
    };
    let kept = records.iter().zip(kept).filter(|(_, &kept)| kept);
    kept.map(|(record, _)| one(record)).collect()
}

#[cfg(test)]
mod tests {
    use super::*;
    use reference::{read, table_check::check, write_tree};

    /// AMB's chart for five nines.
    fn nines() -> (Vec<u8>, Vec<Record>) {
        let table = tables::table(tables::worked::AMB);
        let mut chart = vec![0; 15 * 12];
        read(&table, &tables::words(&[9; 5]), 0, &mut chart);
        (table, records(&chart, 15))
    }

    fn passes(table: &[u8], records: &[Record]) -> bool {
        let (chart, words) = (numbers(records), tables::words(&[9; 5]));
        write_tree(table, &words, &chart, records.len(), 0, &mut [0; 20]).code == 0
    }

    #[test]
    fn other_derivations_pass_and_are_not_the_chosen_ones() {
        let (table, records) = nines();
        let checked = check(&table).expect("AMB is a valid table");
        let mut others = 0;
        for seed in 0..20 {
            let other = other_derivations(&checked, &[9; 5], &records, &mut Chance::new(seed));
            assert!(passes(&table, &other));
            others += (other != records) as usize;
        }
        assert!(others > 10);
    }

    #[test]
    fn parts_pass_and_are_smaller() {
        let (table, records) = nines();
        let checked = check(&table).expect("AMB is a valid table");
        let mut smaller = 0;
        for seed in 0..20 {
            let part = part(&checked, &records, &mut Chance::new(seed));
            assert!(part.is_empty() || passes(&table, &part));
            smaller += (part.len() < records.len()) as usize;
        }
        assert!(smaller > 10);
    }
}
