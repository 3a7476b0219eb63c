//! Every one-byte change and every cut of worked tables: COPY and AMB, and two
//! with three constituents and with three daughters.

use tables::worked::{ABC, AMB, COPY, VERB};

use crate::mismatch::Compared;
use crate::pair::Pair;

/// All 255 other values of every byte, every cut, and one byte too many.
pub fn every_change(pair: &mut Pair) -> Compared {
    for (text, words) in [(COPY, [7, 7]), (AMB, [9, 9]), (ABC, [1, 2]), (VERB, [1, 3])] {
        let table = tables::table(text);
        for place in 0..table.len() {
            changes_at(pair, &table, place, &words)?;
            judge(pair, &table[..place], &words)?;
        }
        for byte in 0..=255 {
            judge(pair, &[&table[..], &[byte]].concat(), &words)?;
        }
    }
    Ok(())
}

fn changes_at(pair: &mut Pair, table: &[u8], place: usize, words: &[u16]) -> Compared {
    let mut changed = table.to_vec();
    for step in 1..=255 {
        changed[place] = table[place].wrapping_add(step);
        judge(pair, &changed, words)?;
    }
    Ok(())
}

/// The table check, seen through the sentence writer and through the reader.
fn judge(pair: &mut Pair, table: &[u8], words: &[u16]) -> Compared {
    pair.sentence(table, &[], 3)?;
    pair.read(table, &tables::words(words), 0, 20 * 12 + 5)?;
    pair.read(table, &[], 3, 5 * 12)?;
    Ok(())
}
