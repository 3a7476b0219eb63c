//! Reads a sentence and draws its tree into tree.svg: `picture [--allowance N]
//! TABLE WORD..`. `help.txt` says what it prints and which exit code it has.

mod asked;
mod end;

use std::process::ExitCode;

use asked::Asked;
use board::{read, write_tree, Reading, CHART_NUMBERS, MOST_NODES};
use end::End;
use picture::names::Names;
use picture::{draw, outline, tree};

/// The picture's file, in the folder that the program is run in.
const PICTURE: &str = "tree.svg";

fn main() -> ExitCode {
    let arguments: Vec<String> = std::env::args().skip(1).collect();
    if asked::wants_help(&arguments) {
        print!("{}", asked::HELP);
        return ExitCode::SUCCESS;
    }
    let old = remove_old_picture();
    let end = match &old {
        Ok(_) => read_and_draw(&arguments).unwrap_or_else(|end| end),
        Err(why) => End::Use(why.clone()),
    };
    end.say(old == Ok(true), PICTURE);
    end.code()
}

/// Whether there was an old picture. It is gone afterwards: it shows another
/// sentence.
fn remove_old_picture() -> Result<bool, String> {
    match std::fs::remove_file(PICTURE) {
        Ok(()) => Ok(true),
        Err(why) if why.kind() == std::io::ErrorKind::NotFound => Ok(false),
        Err(why) => Err(format!("The old {PICTURE} can't be removed: {why}.")),
    }
}

fn read_and_draw(arguments: &[String]) -> Result<End, End> {
    let asked = Asked::of(arguments).map_err(End::Use)?;
    let table = std::fs::read(&asked.table)
        .map_err(|why| End::Use(format!("{} can't be read: {why}.", asked.table.display())))?;
    let names = Names::beside(&asked.table).map_err(End::Use)?;
    let numbers: Result<Vec<u16>, String> =
        asked.words.iter().map(|said| names.number(said)).collect();
    let numbers = numbers.map_err(End::Use)?;
    let words = board::words(&numbers);

    let mut chart = vec![0; CHART_NUMBERS];
    let reading = read(&table, &words, asked.allowance, &mut chart);
    let sentence = outline::sentence(&numbers, &names);
    let (goal, items) = match reading {
        Reading::Yes { goal, items } => (goal, items),
        Reading::No { .. } => return Ok(End::No(format!("{sentence}\n{reading}"))),
        Reading::Full { .. } => return Err(End::Full(format!("{sentence}\n{reading}"))),
        _ => return Err(End::Refused(reading.to_string())),
    };
    println!("{sentence}\n{reading}");
    let mut list = [0; MOST_NODES];
    let nodes = write_tree(&table, &words, &chart, items, goal, &mut list)
        .nodes()
        .map_err(|refused| End::Refused(refused.to_string()))?;
    let tree = tree::tree(&table, &words, &chart, items, goal)
        .expect("a tree that could be written can be drawn");
    println!("The tree, each function before its daughters: {}", spaced(&list[..nodes]));
    print!("{}", outline::outline(&tree, &names));
    std::fs::write(PICTURE, draw(&tree, &names))
        .map_err(|why| End::Use(format!("{PICTURE} can't be written: {why}.")))?;
    Ok(End::Yes)
}

fn spaced(numbers: &[u16]) -> String {
    numbers.iter().map(u16::to_string).collect::<Vec<String>>().join(" ")
}
