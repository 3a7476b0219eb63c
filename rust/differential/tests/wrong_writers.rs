//! Tree writers and sentence writers that look right and are wrong: each must
//! be caught.

mod wrong_calls;

use differential::{fixed, rounds, Pair, Reference};
use reference::chart::Record;
use reference::table_check::check;
use reference::{write_sentence, write_tree, Answer};
use wrong_calls::{sentence_writer, tree_writer, Wrong};

fn caught(wrong: Wrong) -> bool {
    rounds(&mut Pair::new(&Reference, &wrong), 1, 300).is_err()
        || fixed(&mut Pair::new(&Reference, &wrong)).is_err()
}

#[test]
fn the_reference_itself_is_not_caught() {
    assert!(rounds(&mut Pair::new(&Reference, &wrong_calls::RIGHT), 1, 100).is_ok());
}

#[test]
fn blaming_the_parent_of_a_wrong_record_is_caught() {
    assert!(caught(tree_writer(|table, words, chart, count, root, tree| {
        let mut answer = write_tree(table, words, chart, count, root, tree);
        if answer.code == 17 && count > 0 && chart.len() >= count * 12 {
            let has = |place: &usize| {
                Record::at(chart, *place).daughters.contains(&(answer.place as u16))
            };
            let parent = (0..answer.place as usize).find(has);
            answer.place = parent.map_or(answer.place, |parent| parent as u64);
        }
        answer
    })));
}

/// The tree writer, after every record of the chart was made better.
fn on_mended_chart(
    (table, words): (&[u8], &[u8]),
    chart: &[u16],
    (count, root): (usize, usize),
    tree: &mut [u16],
    mend: impl Fn(&mut [u16], usize, usize, &[u16]),
) -> Answer {
    let mut mended = chart.to_vec();
    if let Ok(checked) = check(table) {
        for record in mended.chunks_exact_mut(12).take(count) {
            let Some(rule) = checked.rule(record[1]) else { continue };
            mend(record, rule.rank(), rule.rows.len(), chart);
        }
    }
    write_tree(table, words, &mended, count, root, tree)
}

#[test]
fn passing_over_unused_places_is_caught() {
    assert!(caught(tree_writer(|table, words, chart, count, root, tree| {
        on_mended_chart((table, words), chart, (count, root), tree, |record, rank, _, _| {
            record[9 + rank..].fill(0);
        })
    })));
}

#[test]
fn passing_over_unused_ranges_is_caught() {
    assert!(caught(tree_writer(|table, words, chart, count, root, tree| {
        on_mended_chart((table, words), chart, (count, root), tree, |record, _, rows, _| {
            record[3 + 2 * rows..9].fill(0);
        })
    })));
}

#[test]
fn passing_over_heights_is_caught() {
    assert!(caught(tree_writer(|table, words, chart, count, root, tree| {
        on_mended_chart((table, words), chart, (count, root), tree, |record, rank, _, chart| {
            let height = |&place: &u16| chart.get(place as usize * 12 + 2).copied().unwrap_or(0);
            let greatest = record[9..9 + rank].iter().map(height).max().unwrap_or(0);
            record[2] = greatest.saturating_add(1);
        })
    })));
}

#[test]
fn writing_before_refusing_a_tree_is_caught() {
    assert!(caught(tree_writer(|table, words, chart, count, root, tree| {
        let answer = write_tree(table, words, chart, count, root, tree);
        if answer.code == 19 && !tree.is_empty() {
            tree[0] = Record::at(chart, root).function;
        }
        answer
    })));
}

#[test]
fn a_tree_room_above_255_is_caught() {
    assert!(caught(tree_writer(|table, words, chart, count, root, tree| {
        let mut answer = write_tree(table, words, chart, count, root, tree);
        if answer.code == 19 {
            answer.place = tree.len() as u64;
        }
        answer
    })));
}

#[test]
fn the_root_before_the_chart_is_caught() {
    assert!(caught(tree_writer(|table, words, chart, count, root, tree| {
        match write_tree(table, words, chart, count, root, tree) {
            Answer { code: 17, .. } if root >= count => {
                Answer { code: 18, place: root as u64, count: 0 }
            }
            answer => answer,
        }
    })));
}

#[test]
fn a_count_above_2000_is_caught() {
    assert!(caught(tree_writer(|table, words, chart, count, root, tree| {
        let answer = write_tree(table, words, chart, count, root, tree);
        if answer.code == 17 && count == 2001 && chart.len() >= 2001 * 12 {
            return Answer { code: 17, place: 1, count: 0 };
        }
        answer
    })));
}

#[test]
fn one_node_too_few_is_caught() {
    assert!(caught(sentence_writer(|table, tree, text| {
        write_sentence(table, &tree[..tree.len().saturating_sub(1)], text)
    })));
}

#[test]
fn a_limit_of_254_nodes_is_caught() {
    assert!(caught(sentence_writer(|table, tree, text| {
        let answer = write_sentence(table, tree, text);
        if tree.len() == 255 && answer.code != 2 {
            return Answer { code: 20, place: 254, count: 0 };
        }
        answer
    })));
}

#[test]
fn looking_for_unknown_functions_first_is_caught() {
    assert!(caught(sentence_writer(|table, tree, text| {
        let mut answer = write_sentence(table, tree, text);
        let Ok(checked) = check(table) else { return answer };
        let unknown = tree.iter().position(|&function| checked.rule(function).is_none());
        if let (20, Some(node), true) = (answer.code, unknown, tree.len() < 256) {
            answer.place = node as u64;
        }
        answer
    })));
}

#[test]
fn writing_what_fits_before_refusing_is_caught() {
    assert!(caught(sentence_writer(|table, tree, text| {
        let answer = write_sentence(table, tree, text);
        if answer.code == 21 && !text.is_empty() {
            let mut whole = vec![0; answer.place as usize];
            write_sentence(table, tree, &mut whole);
            text.copy_from_slice(&whole[..text.len()]);
        }
        answer
    })));
}

#[test]
fn the_text_room_for_the_words_needed_is_caught() {
    assert!(caught(sentence_writer(|table, tree, text| {
        let mut answer = write_sentence(table, tree, text);
        if answer.code == 21 {
            answer.place = text.len() as u64;
        }
        answer
    })));
}
