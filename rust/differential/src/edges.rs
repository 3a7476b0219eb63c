//! Cases at the limits: the greatest chart, the greatest table, the longest
//! sentence, the longest list, and trees that are far too large.

use tables::worked::{AMB, COPY};
use tables::{Description, Rule, Symbol};

use crate::mismatch::Compared;
use crate::pair::{Lent, Pair};

/// All of them, the small ones first.
pub fn all(pair: &mut Pair) -> Compared {
    rooms_from_0_up(pair)?;
    long_words(pair)?;
    long_lists(pair)?;
    shared_daughters(pair)?;
    long_chains(pair)?;
    counts(pair)?;
    greatest_tables(pair)?;
    many_categories(pair)?;
    traps(pair)?;
    many_sevens(pair)?;
    many_nines(pair)?;
    exactly_2000_items(pair)
}

/// Every room from 0 up to more than is needed, for all three calls.
fn rooms_from_0_up(pair: &mut Pair) -> Compared {
    for (text, words) in [(COPY, &[7, 7][..]), (AMB, &[9; 3]), (AMB, &[8])] {
        let (table, words) = (tables::table(text), tables::words(words));
        for length in 0..=9 * 12 {
            pair.read(&table, &words, 0, length)?;
            pair.read(&table, &words, length / 12, 120)?;
        }
        let (answer, chart) = pair.read(&table, &words, 0, 120)?;
        let lent = Lent { table: &table, words: &words, chart: &chart };
        for room in 0..8 {
            let (_, list) = pair.tree(lent, answer.count as usize, answer.place as usize, room)?;
            pair.sentence(&table, &list, room)?;
            pair.sentence(&table, &[10, 21, 20], room)?;
        }
    }
    Ok(())
}

/// 62 nines fill 1,953 records, 63 are too many.
fn many_nines(pair: &mut Pair) -> Compared {
    let table = tables::table(AMB);
    let words = tables::words(&[9; 62]);
    for (allowance, length) in [(1952, 24_000), (1953, 1953 * 12)] {
        pair.read(&table, &words, allowance, length)?;
    }
    let (answer, chart) = pair.read(&table, &words, usize::MAX, 24_011)?;
    let (count, goal) = (answer.count as usize, answer.place as usize);
    let lent = Lent { table: &table, words: &words, chart: &chart };
    let (answer, mut list) = pair.tree(lent, count, goal, 300)?;
    list.truncate(answer.count as usize);
    pair.tree(lent, count, goal, list.len() - 1)?;
    pair.sentence(&table, &list, 62)?;
    pair.sentence(&table, &list, 61)?;
    for allowance in [0, 2001] {
        pair.read(&table, &tables::words(&[9; 63]), allowance, 30_000)?;
    }
    Ok(())
}

/// AMB with 62 nines, and 47 or 48 items of a second category.
fn exactly_2000_items(pair: &mut Pair) -> Compared {
    for (nines, length) in [(16, 24_000), (15, 25_000)] {
        let row = ["9"].repeat(nines).join(" ");
        let text = format!(
            "start A1\n1 1\n1 A1(X1.1 X2.1) -> A1(X1.1) A1(X2.1)\n2 A1(9) ->\n3 A2({row}) ->"
        );
        pair.read(&tables::table(&text), &tables::words(&[9; 62]), 0, length)?;
    }
    Ok(())
}

fn many_sevens(pair: &mut Pair) -> Compared {
    let table = tables::table(COPY);
    for sevens in [8, 10, 14, 20, 64] {
        pair.read(&table, &tables::words(&vec![7; sevens]), 0, 24_000)?;
    }
    let mixed: Vec<u16> = (0..24).map(|place| 7 + (place % 12 % 5 % 2) as u16).collect();
    pair.read(&table, &tables::words(&mixed), 0, 24_000)?;
    Ok(())
}

/// 63 to 66 words, odd or not, with and without a zero.
fn long_words(pair: &mut Pair) -> Compared {
    let table = tables::table(COPY);
    for length in 126..=132 {
        for byte in [0, 1, 7] {
            let words = vec![byte; length];
            pair.read(&table, &words, 0, 50)?;
            pair.tree(Lent { table: &table, words: &words, chart: &[] }, 0, 0, 5)?;
        }
    }
    Ok(())
}

/// Lists of 253 to 257 nodes, whole, cut and with a node too many.
fn long_lists(pair: &mut Pair) -> Compared {
    let table = tables::table(AMB);
    for words in [127, 128, 129] {
        let mut list = vec![1; words - 1];
        list.extend(vec![2; words]);
        pair.sentence(&table, &list, 200)?;
        pair.sentence(&table, &list, words - 1)?;
        pair.sentence(&table, &list[..list.len() - 1], 200)?;
        list.push(2);
        pair.sentence(&table, &list, 200)?;
        list[0] = 99;
        pair.sentence(&table, &list, 200)?;
    }
    Ok(())
}

/// Category 1 is empty, each further one is two of the one before: up to a tree
/// of 2 to the power of 61 nodes.
fn shared_daughters(pair: &mut Pair) -> Compared {
    let mut text = format!("start A1\n{}\n1 A1() ->\n", ["1"].repeat(61).join(" "));
    for k in 1..=60 {
        text += &format!("{} A{}(X1.1 X2.1) -> A{k}(X1.1) A{k}(X2.1)\n", k + 1, k + 1);
    }
    let table = tables::table(&text);
    let (answer, chart) = pair.read(&table, &[], 0, 900)?;
    let lent = Lent { table: &table, words: &[], chart: &chart };
    for root in [0, 1, 6, 7, 8, 20, 60, 61] {
        for length in [0, 1, 254, 255, 256, 600] {
            pair.tree(lent, answer.count as usize, root, length)?;
        }
    }
    Ok(())
}

/// A table of 39,497 bytes, with a byte less or more, and with 257 rules.
fn greatest_tables(pair: &mut Pair) -> Compared {
    let mut dimensions = vec![3; 64];
    dimensions[63] = 1;
    let rules = (1..=256).map(greatest_rule).collect();
    let mut greatest = Description { start: 64, dimensions, rules };
    let table = greatest.bytes();
    assert_eq!(table.len(), 39_497);
    for bytes in [&table[..], &table[..39_496], &[&table[..], &[0; 600]].concat()] {
        pair.sentence(bytes, &[], 5)?;
        pair.read(bytes, &tables::words(&[9, 9]), 0, 240)?;
    }
    greatest.rules.push(greatest_rule(257));
    pair.sentence(&greatest.bytes(), &[], 5)?;
    greatest.rules[255].function = 1;
    greatest.rules.pop();
    pair.sentence(&greatest.bytes(), &[], 5)?;
    Ok(())
}

/// Three daughters and three rows of sixteen symbols.
fn greatest_rule(function: u16) -> Rule {
    let row = |c: u16| {
        let mut row: Vec<Symbol> = (1..=3).map(|k| Symbol::Part(k, c)).collect();
        row.resize(16, Symbol::Word(9));
        row
    };
    Rule { function, category: 1, daughters: vec![2, 1, 63], rows: (1..=3).map(row).collect() }
}

/// 64 categories, each made from the next: heights from 1 to 64.
fn many_categories(pair: &mut Pair) -> Compared {
    let mut text = format!("start A1\n{}\n900 A64(7) ->\n", ["1"].repeat(64).join(" "));
    for k in 1..=63 {
        text += &format!("{k} A{k}(X1.1) -> A{}(X1.1)\n", k + 1);
    }
    let table = tables::table(&text);
    for words in [&[7][..], &[7; 20], &[7; 31], &[7; 32], &[8]] {
        pair.read(&table, &tables::words(words), 0, 24_000)?;
    }
    Ok(())
}

/// Each word takes 64 levels: trees that are chains of 192, 255 and 256 nodes.
fn long_chains(pair: &mut Pair) -> Compared {
    let mut text = format!("start A1\n{}\n", ["1"].repeat(64).join(" "));
    for k in 1..=63 {
        text += &format!("{k} A{k}(X1.1) -> A{}(X1.1)\n", k + 1);
    }
    text += "64 A64(7 X1.1) -> A1(X1.1)\n65 A64(7) ->\n";
    let table = tables::table(&text);
    for sevens in [3, 4] {
        let words = tables::words(&vec![7; sevens]);
        let (answer, chart) = pair.read(&table, &words, 0, 12 * 700)?;
        let lent = Lent { table: &table, words: &words, chart: &chart };
        let goal = answer.place as usize;
        for root in [goal, goal + sevens * (sevens + 1) / 2] {
            let (answer, list) = pair.tree(lent, answer.count as usize, root, 300)?;
            pair.sentence(&table, &list[..answer.count as usize], 5)?;
        }
    }
    Ok(())
}

/// Counts and roots that no chart has.
fn counts(pair: &mut Pair) -> Compared {
    let table = tables::table(AMB);
    let words = tables::words(&[9]);
    let chart = [&[1, 2, 1, 0, 1, 0, 0, 0, 0, 0, 0, 0][..], &[0; 24_100]].concat();
    let lent = Lent { table: &table, words: &words, chart: &chart };
    for count in [0, 1, 2, 2000, 2001, usize::MAX / 12 + 1, usize::MAX] {
        for root in [0, 1, 2000, 65_536, usize::MAX] {
            pair.tree(lent, count, root, 4)?;
        }
    }
    Ok(())
}

/// The trap tables on a few words.
fn traps(pair: &mut Pair) -> Compared {
    for trap in tables::traps::traps() {
        for nines in 0..4 {
            pair.read(&trap.table, &tables::words(&vec![9; nines]), 0, 3000)?;
        }
    }
    Ok(())
}
