//! A rule table that has passed its check.

/// A checked table.
#[derive(Clone, PartialEq, Eq, Debug)]
pub struct Table {
    /// The start category.
    pub start: usize,
    /// Each category's dimension; `dimension` looks it up.
    pub dimensions: Vec<usize>,
    /// The rules in the order of the table.
    pub rules: Vec<Rule>,
}

/// A rule. Categories are counted from 1, as in the table.
#[derive(Clone, PartialEq, Eq, Debug)]
pub struct Rule {
    pub function: u16,
    pub category: usize,
    /// The daughters' categories; their number is the rank.
    pub daughters: Vec<usize>,
    /// One row for each constituent of the rule's category.
    pub rows: Vec<Vec<Symbol>>,
}

/// One symbol of a row. Daughters and constituents are counted from 0 here.
#[derive(Clone, Copy, PartialEq, Eq, Debug)]
pub enum Symbol {
    Word(u16),
    Part { daughter: usize, constituent: usize },
}

impl Table {
    /// The dimension of a category of this table.
    pub fn dimension(&self, category: usize) -> usize {
        self.dimensions[category - 1]
    }

    /// The rule that carries this function number.
    pub fn rule(&self, function: u16) -> Option<&Rule> {
        self.rules.iter().find(|rule| rule.function == function)
    }
}

impl Rule {
    /// The number of daughters.
    pub fn rank(&self) -> usize {
        self.daughters.len()
    }
}
