//! The cursor that reads a table's fields one after another.

use crate::answer::{Code, Refusal};

/// Where we are in a table.
pub struct Cursor<'a> {
    table: &'a [u8],
    at: usize,
}

/// A field: its number, and the place of its first byte.
#[derive(Clone, Copy)]
pub struct Field {
    pub value: usize,
    pub place: usize,
}

impl<'a> Cursor<'a> {
    pub fn new(table: &'a [u8]) -> Cursor<'a> {
        Cursor { table, at: 0 }
    }

    /// The place of the next byte.
    pub fn place(&self) -> usize {
        self.at
    }

    pub fn at_end(&self) -> bool {
        self.at == self.table.len()
    }

    /// The next field of one byte.
    pub fn byte(&mut self) -> Result<Field, Refusal> {
        let (place, bytes) = self.take(1)?;
        Ok(Field { value: bytes[0] as usize, place })
    }

    /// The next field of two bytes, the low byte first.
    pub fn two_bytes(&mut self) -> Result<Field, Refusal> {
        let (place, bytes) = self.take(2)?;
        Ok(Field { value: bytes[0] as usize + 256 * bytes[1] as usize, place })
    }

    /// Short, if fewer than `number` bytes are left.
    pub fn must_have(&self, number: usize) -> Result<(), Refusal> {
        if self.table.len() - self.at < number {
            return Err(Refusal::new(Code::Short, self.table.len()));
        }
        Ok(())
    }

    fn take(&mut self, number: usize) -> Result<(usize, &'a [u8]), Refusal> {
        self.must_have(number)?;
        let place = self.at;
        self.at += number;
        Ok((place, &self.table[place..self.at]))
    }
}
