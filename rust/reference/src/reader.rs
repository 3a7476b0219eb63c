//! The reader: a table and words in, an answer and a chart out.

use crate::answer::{Answer, Code, Refusal};
use crate::chart::{self, Record, MOST_RECORDS, RECORD};
use crate::chosen;
use crate::item::Item;
use crate::levels;
use crate::table_check;
use crate::words;

/// The greatest height there may be.
const GREATEST_HEIGHT: usize = 2000;

/// Reads the words by the table and writes the chart.
pub fn read(table: &[u8], words: &[u8], allowance: usize, chart: &mut [u16]) -> Answer {
    match records(table, words, room(allowance, chart.len())) {
        Ok((records, goal)) => {
            chart::write(&records, chart);
            verdict(&records, goal)
        }
        Err(refusal) => {
            if matches!(refusal.code, Code::Full | Code::Deep) {
                chart.fill(0);
            }
            refusal.into()
        }
    }
}

/// Room: the smaller of the allowance and the whole records that the slice holds.
pub fn room(allowance: usize, chart_length: usize) -> usize {
    let allowed = if allowance == 0 { MOST_RECORDS } else { allowance.min(MOST_RECORDS) };
    allowed.min(chart_length / RECORD)
}

/// All records and the goal, or the refusal.
fn records(table: &[u8], words: &[u8], room: usize) -> Result<(Vec<Record>, Item), Refusal> {
    let table = table_check::check(table)?;
    let words = words::check(words)?;
    let known = levels::true_items(&table, &words, room).ok_or(Refusal::new(Code::Full, room))?;
    if known.values().any(|&height| height > GREATEST_HEIGHT) {
        return Err(Refusal::new(Code::Deep, 0));
    }
    let records = chosen::records(&table, &words, &known);
    Ok((records, Item::goal(&table, words.len())))
}

fn verdict(records: &[Record], goal: Item) -> Answer {
    match records.iter().position(|record| record.item == goal) {
        Some(place) => Answer::new(Code::Yes, place, records.len()),
        None => Answer::new(Code::No, 0, records.len()),
    }
}
