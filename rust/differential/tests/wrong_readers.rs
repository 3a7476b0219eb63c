//! Readers that look right and are wrong: each must be caught.

mod hasty;
mod wrong_calls;

use differential::{fixed, rounds, Calls, Pair, Reference};
use hasty::Fault;
use reference::reader::room;
use reference::{read, Answer};
use wrong_calls::{reader, Read};

/// Whether the random rounds alone find a difference.
fn caught_by_rounds(wrong: &dyn Calls) -> bool {
    rounds(&mut Pair::new(&Reference, wrong), 1, 300).is_err()
}

fn caught(wrong: Read) -> bool {
    let wrong = reader(wrong);
    caught_by_rounds(&wrong) || fixed(&mut Pair::new(&Reference, &wrong)).is_err()
}

#[test]
fn a_second_reader_without_a_fault_agrees() {
    let right = reader(|table, words, allowance, chart| {
        hasty::read(Fault::None, table, words, allowance, chart)
    });
    if let Err(mismatch) = rounds(&mut Pair::new(&Reference, &right), 1, 400) {
        panic!("{mismatch}");
    }
}

#[test]
fn stopping_at_the_first_goal_is_caught() {
    assert!(caught_by_rounds(&reader(|table, words, allowance, chart| {
        hasty::read(Fault::StopsAtTheFirstGoal, table, words, allowance, chart)
    })));
}

#[test]
fn keeping_the_first_derivation_met_is_caught() {
    assert!(caught_by_rounds(&reader(|table, words, allowance, chart| {
        hasty::read(Fault::KeepsTheFirstDerivationMet, table, words, allowance, chart)
    })));
}

#[test]
fn an_empty_constituent_at_each_position_is_caught() {
    assert!(caught_by_rounds(&reader(|table, words, allowance, chart| {
        let fault = Fault::GivesAnEmptyConstituentARangeAtEachPosition;
        hasty::read(fault, table, words, allowance, chart)
    })));
}

#[test]
fn answering_no_where_the_chart_ran_out_is_caught() {
    assert!(caught_by_rounds(&reader(|table, words, allowance, chart| {
        match read(table, words, allowance, chart) {
            Answer { code: 16, .. } => Answer { code: 1, place: 0, count: 0 },
            answer => answer,
        }
    })));
}

#[test]
fn full_where_the_room_is_just_enough_is_caught() {
    assert!(caught(|table, words, allowance, chart| {
        let answer = read(table, words, allowance, chart);
        let room = room(allowance, chart.len()) as u64;
        if answer.code > 1 || answer.count < room {
            return answer;
        }
        chart.fill(0);
        Answer { code: 16, place: room, count: 0 }
    }));
}

#[test]
fn leaving_the_rest_of_the_chart_as_lent_is_caught() {
    assert!(caught(|table, words, allowance, chart| {
        let lent = chart.to_vec();
        let answer = read(table, words, allowance, chart);
        let records = answer.count as usize * 12;
        if answer.code <= 1 {
            chart[records..].copy_from_slice(&lent[records..]);
        }
        answer
    }));
}

#[test]
fn zeroing_whole_records_alone_is_caught() {
    assert!(caught(|table, words, allowance, chart| {
        let lent = chart.to_vec();
        let answer = read(table, words, allowance, chart);
        let whole = chart.len() / 12 * 12;
        chart[whole..].copy_from_slice(&lent[whole..]);
        answer
    }));
}

#[test]
fn leaving_the_chart_as_lent_on_full_is_caught() {
    assert!(caught(|table, words, allowance, chart| {
        let lent = chart.to_vec();
        let answer = read(table, words, allowance, chart);
        if answer.code == 16 {
            chart.copy_from_slice(&lent);
        }
        answer
    }));
}

#[test]
fn zeroing_the_chart_on_a_refusal_is_caught() {
    assert!(caught(|table, words, allowance, chart| {
        let answer = read(table, words, allowance, chart);
        if (2..=15).contains(&answer.code) {
            chart.fill(0);
        }
        answer
    }));
}

#[test]
fn a_zero_allowance_taken_as_none_is_caught() {
    assert!(caught(|table, words, allowance, chart| {
        if allowance > 0 {
            return read(table, words, allowance, chart);
        }
        let answer = read(table, words, 0, &mut []);
        if answer.code <= 1 || answer.code == 16 {
            chart.fill(0);
        }
        answer
    }));
}

#[test]
fn an_allowance_above_2000_is_caught() {
    assert!(caught(|table, words, allowance, chart| {
        let mut answer = read(table, words, allowance, chart);
        if answer.code == 16 && allowance > 2000 {
            answer.place = allowance.min(chart.len() / 12) as u64;
        }
        answer
    }));
}

#[test]
fn odd_before_long_is_caught() {
    assert!(caught(|table, words, allowance, chart| {
        let answer = read(table, words, allowance, chart);
        if answer.code == 13 && words.len() % 2 == 1 {
            return Answer { code: 14, place: words.len() as u64 - 1, count: 0 };
        }
        answer
    }));
}

#[test]
fn a_zero_words_byte_for_its_index_is_caught() {
    assert!(caught(|table, words, allowance, chart| {
        let mut answer = read(table, words, allowance, chart);
        if answer.code == 15 {
            answer.place *= 2;
        }
        answer
    }));
}

/// The dimensions, as far as they are there, of a table refused after its header.
fn dimensions(table: &[u8], answer: Answer) -> Option<&[u8]> {
    let after_header = answer.code > 1 && answer.place >= 9;
    after_header.then(|| &table[9..table.len().min(9 + table[5] as usize)])
}

#[test]
fn start_before_the_other_dimensions_is_caught() {
    assert!(caught(|table, words, allowance, chart| {
        let answer = read(table, words, allowance, chart);
        let start = dimensions(table, answer).and_then(|all| all.get(table[6] as usize - 1));
        match (answer.code, start) {
            (2 | 5, Some(2 | 3)) => Answer { code: 11, place: 8 + table[6] as u64, count: 0 },
            _ => answer,
        }
    }));
}

#[test]
fn counting_the_dimensions_before_looking_at_them_is_caught() {
    assert!(caught(|table, words, allowance, chart| {
        let answer = read(table, words, allowance, chart);
        let cut = dimensions(table, answer).is_some_and(|all| all.len() < table[5] as usize);
        match (answer.code, cut) {
            (5, true) => Answer { code: 2, place: table.len() as u64, count: 0 },
            _ => answer,
        }
    }));
}
