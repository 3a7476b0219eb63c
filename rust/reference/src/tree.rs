//! The tree writer: function numbers, each node before its daughters.

use crate::answer::{Answer, Code, Refusal};
use crate::chart::Record;
use crate::chart_check;
use crate::table::Table;
use crate::table_check;
use crate::words;

/// No tree list has more nodes than this.
pub const MOST_NODES: usize = 255;

/// Writes the tree of the record at `root`.
pub fn write_tree(
    table: &[u8],
    words: &[u8],
    chart: &[u16],
    count: usize,
    root: usize,
    tree: &mut [u16],
) -> Answer {
    let room = tree.len().min(MOST_NODES);
    match nodes(table, words, chart, count, root, room) {
        Ok(nodes) => {
            tree[..nodes.len()].copy_from_slice(&nodes);
            Answer::written(nodes.len())
        }
        Err(refusal) => refusal.into(),
    }
}

fn nodes(
    table: &[u8],
    words: &[u8],
    chart: &[u16],
    count: usize,
    root: usize,
    room: usize,
) -> Result<Vec<u16>, Refusal> {
    let table = table_check::check(table)?;
    let words = words::check(words)?;
    let records = chart_check::check(&table, &words, chart, count)?;
    if root >= count {
        return Err(Refusal::new(Code::Place, root));
    }
    list(&table, &records, root, room).ok_or(Refusal::new(Code::TreeRoom, room))
}

/// The nodes, or nothing as soon as they are more than the room.
fn list(table: &Table, records: &[Record], root: usize, room: usize) -> Option<Vec<u16>> {
    let mut nodes = Vec::new();
    let mut waiting = vec![root];
    while let Some(place) = waiting.pop() {
        if nodes.len() == room {
            return None;
        }
        let record = &records[place];
        nodes.push(record.function);
        let rank = table.rule(record.function).map_or(0, |rule| rule.rank());
        let daughters = record.daughters[..rank].iter().rev();
        waiting.extend(daughters.map(|&daughter| daughter as usize));
    }
    Some(nodes)
}
