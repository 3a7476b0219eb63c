//! The table check: codes 2 to 12 with their places, in byte order.

use crate::answer::{Code, Refusal};
use crate::cursor::{Cursor, Field};
use crate::table::{Rule, Symbol, Table};

/// Checks a table. The bytes before the dimensions number nine.
pub fn check(bytes: &[u8]) -> Result<Table, Refusal> {
    if bytes.len() < 9 {
        return Err(Refusal::new(Code::Short, bytes.len()));
    }
    let mut cursor = Cursor::new(bytes);
    let header = header(&mut cursor)?;
    let dimensions = dimensions(&mut cursor, header.categories)?;
    if dimensions[header.start - 1] != 1 {
        return Err(Refusal::new(Code::Start, 9 + header.start - 1));
    }
    let mut table = Table { start: header.start, dimensions, rules: Vec::new() };
    for _ in 0..header.rules {
        let rule = rule(&mut cursor, &table)?;
        table.rules.push(rule);
    }
    if !cursor.at_end() {
        return Err(Refusal::new(Code::Trailing, cursor.place()));
    }
    Ok(table)
}

struct Header {
    categories: usize,
    start: usize,
    rules: usize,
}

fn header(cursor: &mut Cursor) -> Result<Header, Refusal> {
    for letter in b"MCG" {
        if cursor.byte()?.value != *letter as usize {
            return Err(Refusal::new(Code::Mark, 0));
        }
    }
    let version = cursor.two_bytes()?;
    if version.value != 1 {
        return Err(Refusal::new(Code::Version, version.place));
    }
    let categories = within(cursor.byte()?, 1, 64)?;
    let start = category(cursor.byte()?, categories)?;
    let rules = within(cursor.two_bytes()?, 0, 256)?;
    Ok(Header { categories, start, rules })
}

fn dimensions(cursor: &mut Cursor, categories: usize) -> Result<Vec<usize>, Refusal> {
    (0..categories).map(|_| within(cursor.byte()?, 1, 3)).collect()
}

/// One rule, after the rules that `table` already holds.
fn rule(cursor: &mut Cursor, table: &Table) -> Result<Rule, Refusal> {
    let function = function(cursor.two_bytes()?, table)?;
    let first_byte = cursor.place() - 2;
    let categories = table.dimensions.len();
    let result = category(cursor.byte()?, categories)?;
    let rank = within(cursor.byte()?, 0, 3)?;
    let daughters: Vec<usize> =
        (0..rank).map(|_| category(cursor.byte()?, categories)).collect::<Result<_, _>>()?;
    let dimensions: Vec<usize> =
        daughters.iter().map(|&daughter| table.dimension(daughter)).collect();
    let mut uses = Uses::new(dimensions);
    let rows =
        (0..table.dimension(result)).map(|_| row(cursor, &mut uses)).collect::<Result<_, _>>()?;
    if !uses.all_used() {
        return Err(Refusal::new(Code::Missing, first_byte));
    }
    Ok(Rule { function, category: result, daughters, rows })
}

fn row(cursor: &mut Cursor, uses: &mut Uses) -> Result<Vec<Symbol>, Refusal> {
    let length = within(cursor.byte()?, 0, 16)?;
    (0..length).map(|_| symbol(cursor, uses)).collect()
}

/// A symbol's three bytes must be there before its kind is looked at.
fn symbol(cursor: &mut Cursor, uses: &mut Uses) -> Result<Symbol, Refusal> {
    cursor.must_have(3)?;
    let kind = cursor.byte()?;
    let number = cursor.two_bytes()?;
    if kind.value > uses.dimensions.len() {
        return Err(Refusal::new(Code::Symbol, kind.place));
    }
    if kind.value == 0 {
        return match number.value {
            0 => Err(Refusal::new(Code::Symbol, number.place)),
            word => Ok(Symbol::Word(word as u16)),
        };
    }
    let daughter = kind.value - 1;
    if number.value == 0 || number.value > uses.dimensions[daughter] {
        return Err(Refusal::new(Code::Symbol, number.place));
    }
    let constituent = number.value - 1;
    uses.mark(daughter, constituent, kind.place)?;
    Ok(Symbol::Part { daughter, constituent })
}

/// Which constituents of which daughters a rule has used so far.
struct Uses {
    dimensions: Vec<usize>,
    used: [[bool; 3]; 3],
}

impl Uses {
    fn new(dimensions: Vec<usize>) -> Uses {
        Uses { dimensions, used: [[false; 3]; 3] }
    }

    fn mark(&mut self, daughter: usize, constituent: usize, place: usize) -> Result<(), Refusal> {
        if self.used[daughter][constituent] {
            return Err(Refusal::new(Code::Twice, place));
        }
        self.used[daughter][constituent] = true;
        Ok(())
    }

    fn all_used(&self) -> bool {
        let mut daughters = self.dimensions.iter().zip(&self.used);
        daughters.all(|(&dimension, used)| used[..dimension].iter().all(|&used| used))
    }
}

fn within(field: Field, least: usize, greatest: usize) -> Result<usize, Refusal> {
    if field.value < least || field.value > greatest {
        return Err(Refusal::new(Code::Range, field.place));
    }
    Ok(field.value)
}

fn category(field: Field, categories: usize) -> Result<usize, Refusal> {
    if field.value == 0 || field.value > categories {
        return Err(Refusal::new(Code::Category, field.place));
    }
    Ok(field.value)
}

fn function(field: Field, table: &Table) -> Result<u16, Refusal> {
    let function = field.value as u16;
    if function == 0 || table.rule(function).is_some() {
        return Err(Refusal::new(Code::Function, field.place));
    }
    Ok(function)
}
