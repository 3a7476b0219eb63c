//! At which height a branch turns aside. Between two rows there are lanes, one
//! above the other; two branches share a lane only where they do not meet.

use crate::placing::{Lead, Placing};

/// The lane of each branch, counted from the top, and the number of lanes below
/// each row.
pub struct Lanes {
    pub of_leads: Vec<usize>,
    pub in_band: Vec<usize>,
}

/// Long branches take the upper lanes, so that those of one node don't cross.
pub fn lanes(placing: &Placing) -> Lanes {
    let mut order: Vec<usize> = (0..placing.leads.len()).collect();
    order.sort_by_key(|&number| std::cmp::Reverse(length(placing, &placing.leads[number])));
    let mut of_leads = vec![0; placing.leads.len()];
    let mut bands: Vec<Vec<Vec<(i64, i64)>>> = vec![Vec::new(); placing.tree.deepest() + 1];
    for number in order {
        let lead = &placing.leads[number];
        if length(placing, lead) > 0 {
            let band = &mut bands[placing.tree.nodes[lead.node].depth];
            of_leads[number] = take(band, aside(placing, lead));
        }
    }
    Lanes { of_leads, in_band: bands.iter().map(Vec::len).collect() }
}

/// From where to where a branch goes aside.
fn aside(placing: &Placing, lead: &Lead) -> (i64, i64) {
    let arrival = placing.arrival(lead);
    (lead.port.min(arrival), lead.port.max(arrival))
}

fn length(placing: &Placing, lead: &Lead) -> i64 {
    let (left, right) = aside(placing, lead);
    right - left
}

/// Takes the first lane in which there is nothing from left to right.
fn take(band: &mut Vec<Vec<(i64, i64)>>, (left, right): (i64, i64)) -> usize {
    let is_free = |lane: &Vec<(i64, i64)>| lane.iter().all(|&(l, r)| r < left || right < l);
    let lane = band.iter().position(is_free).unwrap_or(band.len());
    if lane == band.len() {
        band.push(Vec::new());
    }
    band[lane].push((left, right));
    lane
}
