//! The trap tables are valid and have the sizes that their names say.

use reference::table::Rule;
use reference::table_check::check;
use tables::traps::traps;

#[test]
fn each_trap_is_a_valid_table_of_254_like_rules() {
    for trap in traps() {
        let table = check(&trap.table).expect("a valid table");
        let first = &table.rules[0];
        let alike = |rule: &&Rule| rule.rows == first.rows && rule.daughters == first.daughters;
        assert_eq!(table.rules.iter().filter(alike).count(), 254, "{}", trap.name);
        assert!(table.rules.len() <= 256);
    }
}

#[test]
fn ranks_and_dimensions_are_as_named() {
    let shapes: Vec<(usize, usize, usize)> = traps()
        .iter()
        .map(|trap| {
            let table = check(&trap.table).expect("a valid table");
            (table.rules[0].rank(), table.rules[0].rows.len(), trap.nines)
        })
        .collect();
    assert_eq!(shapes, [(2, 1, 62), (3, 1, 62), (3, 1, 62), (2, 2, 14), (3, 3, 9)]);
}

#[test]
fn a_small_sentence_is_read() {
    for trap in traps() {
        let mut chart = vec![0; 24_000];
        let answer = reference::read(&trap.table, &tables::words(&[9; 3]), 0, &mut chart);
        assert!(answer.code <= 1 && answer.count > 0, "{}", trap.name);
    }
}
