//! A rule table as a value, and its bytes (version 1). Nothing is checked here:
//! a description of a wrong table gives the wrong table's bytes.

/// A table: its start category, each category's dimension, and its rules.
#[derive(Clone, PartialEq, Eq, Debug)]
pub struct Description {
    pub start: u8,
    pub dimensions: Vec<u8>,
    pub rules: Vec<Rule>,
}

/// A rule: `function category(rows) -> daughters`.
#[derive(Clone, PartialEq, Eq, Debug)]
pub struct Rule {
    pub function: u16,
    pub category: u8,
    pub daughters: Vec<u8>,
    pub rows: Vec<Vec<Symbol>>,
}

/// One symbol of a row.
#[derive(Clone, Copy, PartialEq, Eq, Debug)]
pub enum Symbol {
    /// A word.
    Word(u16),
    /// `Part(k, c)` is constituent `c` of daughter `k`, both counted from 1.
    Part(u8, u16),
}

impl Description {
    /// The table's bytes.
    pub fn bytes(&self) -> Vec<u8> {
        let mut bytes = b"MCG".to_vec();
        bytes.extend(1u16.to_le_bytes());
        bytes.push(self.dimensions.len() as u8);
        bytes.push(self.start);
        bytes.extend((self.rules.len() as u16).to_le_bytes());
        bytes.extend(&self.dimensions);
        for rule in &self.rules {
            rule.append_to(&mut bytes);
        }
        bytes
    }
}

impl Rule {
    fn append_to(&self, bytes: &mut Vec<u8>) {
        bytes.extend(self.function.to_le_bytes());
        bytes.push(self.category);
        bytes.push(self.daughters.len() as u8);
        bytes.extend(&self.daughters);
        for row in &self.rows {
            bytes.push(row.len() as u8);
            bytes.extend(row.iter().flat_map(|symbol| symbol.bytes()));
        }
    }
}

impl Symbol {
    fn bytes(self) -> [u8; 3] {
        let (kind, number) = match self {
            Symbol::Word(word) => (0, word),
            Symbol::Part(daughter, constituent) => (daughter, constituent),
        };
        let [low, high] = number.to_le_bytes();
        [kind, low, high]
    }
}
