//! Best paths without any distances: the choices spread over the links from the exit points.
//!
//! All routers compare metric, speaker number and path number, in that order, and a link adds to
//! the metric only. So what is best through a neighbour is best at the neighbour, and a choice is
//! one number of 64 bits: 26 for the metric, 32 for the speaker, 6 for the path.

use crate::sets::members;
use crate::table::{Table, MOST_ROUTERS};

type Choice = u64;

/// More than any choice. A link fits on top of it.
const NONE: Choice = 1 << 63;

const METRIC: u32 = 38;
const SPEAKER: u32 = 6;

/// Writes the best path of each router of the paths that are kept, at least one.
pub fn choose(table: &Table, kept: u64, room: &mut [u8]) {
    let own = own(table, kept);
    let all = spread(table, own);
    for (router, byte) in room.iter_mut().enumerate() {
        // An exit of its own goes before every other.
        let choice = match own[router] {
            NONE => all[router],
            own => own,
        };
        *byte = (choice & ((1 << SPEAKER) - 1)) as u8;
    }
}

/// What each router chooses of its own exits.
fn own(table: &Table, kept: u64) -> [Choice; MOST_ROUTERS] {
    let mut own = [NONE; MOST_ROUTERS];
    for number in members(kept) {
        let path = &table.paths[number];
        let metric = (path.exit_cost as Choice) << METRIC;
        let choice = metric | (path.speaker as Choice) << SPEAKER | number as Choice;
        let least = &mut own[path.exit_point as usize];
        *least = choice.min(*least);
    }
    own
}

/// What each router would choose of all exits, until no link brings anything better.
fn spread(table: &Table, own: [Choice; MOST_ROUTERS]) -> [Choice; MOST_ROUTERS] {
    let mut all = own;
    loop {
        let before = all;
        for link in &table.links {
            let (from, to) = (link.from as usize, link.to as usize);
            let metric = (link.metric as Choice) << METRIC;
            all[from] = all[from].min(all[to] + metric);
            all[to] = all[to].min(all[from] + metric);
        }
        if all == before {
            return all;
        }
    }
}
