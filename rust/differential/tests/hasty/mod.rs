//! A second reader, written another way than the reference: no combination is
//! left out, rows are run from every start, and the chosen derivation is the
//! least of each level. It is for small input. Faults can be switched on; without
//! a fault it must agree with the reference.

use std::collections::{BTreeMap, BTreeSet};

use reference::chart::{self, Record};
use reference::item::Item;
use reference::range::Range;
use reference::reader::room;
use reference::table::{Rule, Symbol, Table};
use reference::{table_check, words, Answer, Code, Refusal};

/// What the reader does wrong.
#[derive(Clone, Copy, PartialEq, Eq, Debug)]
pub enum Fault {
    None,
    StopsAtTheFirstGoal,
    KeepsTheFirstDerivationMet,
    GivesAnEmptyConstituentARangeAtEachPosition,
}

/// How an item was made.
struct Found {
    height: usize,
    function: u16,
    daughters: Vec<Item>,
}

type Known = BTreeMap<Item, Found>;

/// Reads, with a fault.
pub fn read(
    fault: Fault,
    table: &[u8],
    words: &[u8],
    allowance: usize,
    chart: &mut [u16],
) -> Answer {
    let room = room(allowance, chart.len());
    let checked = table_check::check(table).and_then(|table| Ok((table, words::check(words)?)));
    let (table, words) = match checked {
        Ok(checked) => checked,
        Err(refusal) => return refusal.into(),
    };
    let hasty = Hasty { fault, table: &table, words: &words, room };
    let Some(known) = hasty.all_levels() else {
        chart.fill(0);
        return Refusal::new(Code::Full, room).into();
    };
    let records = records(&known);
    chart::write(&records, chart);
    let goal = Item::goal(&table, words.len());
    match records.iter().position(|record| record.item == goal) {
        Some(place) => Answer::new(Code::Yes, place, records.len()),
        None => Answer::new(Code::No, 0, records.len()),
    }
}

fn records(known: &Known) -> Vec<Record> {
    let items: Vec<&Item> = known.keys().collect();
    let place = |item: &Item| items.binary_search(&item).expect("daughters are known");
    let record = |(item, found): (&Item, &Found)| {
        let places: Vec<usize> = found.daughters.iter().map(place).collect();
        Record::new(*item, found.function, found.height, &places)
    };
    known.iter().map(record).collect()
}

struct Hasty<'a> {
    fault: Fault,
    table: &'a Table,
    words: &'a [u16],
    room: usize,
}

impl Hasty<'_> {
    fn all_levels(&self) -> Option<Known> {
        let mut known = Known::new();
        let goal = Item::goal(self.table, self.words.len());
        for height in 1.. {
            let fresh = self.level(&known, height);
            let stop = self.fault == Fault::StopsAtTheFirstGoal && known.contains_key(&goal);
            if fresh.is_empty() || stop {
                break;
            }
            known.extend(fresh);
            if known.len() > self.room {
                return None;
            }
        }
        Some(known)
    }

    /// The new items of this height. Of the derivations of an item the least is
    /// kept: by function number, then by the daughters in chart order.
    fn level(&self, known: &Known, height: usize) -> Known {
        let mut fresh = Known::new();
        for rule in &self.table.rules {
            for daughters in sequences(rule, known) {
                let greatest = daughters.iter().map(|daughter| known[daughter].height).max();
                if greatest.unwrap_or(0) + 1 == height {
                    self.take(rule, daughters, height, known, &mut fresh);
                }
            }
        }
        fresh
    }

    fn take(
        &self,
        rule: &Rule,
        daughters: Vec<Item>,
        height: usize,
        known: &Known,
        fresh: &mut Known,
    ) {
        for item in self.gives(rule, &daughters) {
            if known.contains_key(&item) {
                continue;
            }
            let new = Found { height, function: rule.function, daughters: daughters.clone() };
            let kept = fresh.entry(item).or_insert(new);
            let less = (rule.function, &daughters) < (kept.function, &kept.daughters);
            if less && self.fault != Fault::KeepsTheFirstDerivationMet {
                kept.function = rule.function;
                kept.daughters = daughters.clone();
            }
        }
    }

    fn gives(&self, rule: &Rule, daughters: &[Item]) -> Vec<Item> {
        let mut items = vec![Item::of(rule.category)];
        for (number, row) in rule.rows.iter().enumerate() {
            let ranges: BTreeSet<Range> = (0..=self.words.len())
                .filter_map(|start| self.run(row, daughters, start))
                .collect();
            let all = |item: Item| ranges.iter().map(move |&range| item.with(number, range));
            items = items.into_iter().flat_map(all).collect();
        }
        items
    }

    /// Runs a row from this start; its range, if it runs through.
    fn run(&self, row: &[Symbol], daughters: &[Item], start: usize) -> Option<Range> {
        let mut at = start;
        for &symbol in row {
            at = self.after(symbol, daughters, at)?;
        }
        let nothing = at == start && !self.empty_everywhere();
        Some(if nothing { Range::EMPTY } else { Range::new(start, at) })
    }

    /// Where a symbol that starts here ends.
    fn after(&self, symbol: Symbol, daughters: &[Item], at: usize) -> Option<usize> {
        match symbol {
            Symbol::Word(word) => (self.words.get(at) == Some(&word)).then_some(at + 1),
            Symbol::Part { daughter, constituent } => {
                let range = daughters[daughter].ranges[constituent];
                if range.is_empty() && !self.empty_everywhere() {
                    return Some(at);
                }
                (range.start as usize == at).then_some(range.end as usize)
            }
        }
    }

    fn empty_everywhere(&self) -> bool {
        self.fault == Fault::GivesAnEmptyConstituentARangeAtEachPosition
    }
}

/// All sequences of daughters of the right categories.
fn sequences(rule: &Rule, known: &Known) -> Vec<Vec<Item>> {
    let mut sequences = vec![vec![]];
    for &category in &rule.daughters {
        let of_category = || known.keys().filter(move |item| item.category as usize == category);
        let longer = |one: Vec<Item>| {
            of_category().map(move |item| [&one[..], &[*item]].concat()).collect::<Vec<_>>()
        };
        sequences = sequences.into_iter().flat_map(longer).collect();
    }
    sequences
}
