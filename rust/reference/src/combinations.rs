//! Walking over all sequences of daughters that a rule may have.

use std::ops::ControlFlow;

use crate::item::Item;
use crate::phrase::may_still_give;
use crate::table::Rule;

/// Called with the daughters' places and the daughters themselves; may stop the walk.
pub type Visit<'a> = dyn FnMut(&[usize], &[Item]) -> ControlFlow<()> + 'a;

/// Visits the sequences of daughters of the right categories out of `items`,
/// which stand in chart order. The sequences come in the order of their places,
/// first daughter first. Sequences that surely give nothing are left out.
pub fn each_sequence(
    rule: &Rule,
    items: &[Item],
    words: &[u16],
    visit: &mut Visit,
) -> ControlFlow<()> {
    let walk = Walk { rule, items, words };
    walk.further(&mut Vec::new(), &mut Vec::new(), visit)
}

struct Walk<'a> {
    rule: &'a Rule,
    items: &'a [Item],
    words: &'a [u16],
}

impl Walk<'_> {
    /// Goes on from the daughters found so far.
    fn further(
        &self,
        places: &mut Vec<usize>,
        daughters: &mut Vec<Item>,
        visit: &mut Visit,
    ) -> ControlFlow<()> {
        if daughters.len() == self.rule.rank() {
            return visit(places, daughters);
        }
        for place in self.places_of(self.rule.daughters[daughters.len()]) {
            places.push(place);
            daughters.push(self.items[place]);
            if may_still_give(self.rule, daughters, self.words) {
                self.further(places, daughters, visit)?;
            }
            places.pop();
            daughters.pop();
        }
        ControlFlow::Continue(())
    }

    /// In chart order the items of one category stand together.
    fn places_of(&self, category: usize) -> std::ops::Range<usize> {
        let first = self.items.partition_point(|item| (item.category as usize) < category);
        let after = self.items.partition_point(|item| item.category as usize <= category);
        first..after
    }
}
