//! What docs/PROTOCOL.md says of the way of a packet, asked of every router.

use crate::distances::Distances;
use crate::forwarding::{best, link_metric, metric, way};
use crate::table::Table;

/// The first router whose packet does not go as the page says, if any. The set holds a declared
/// path.
pub fn broken(table: &Table, set: u64) -> Option<String> {
    let distances = Distances::of(table);
    (0..table.routers.len()).find_map(|router| {
        let way = match way(table, &distances, router, set) {
            Some(way) => way,
            None => return Some(format!("a packet from router {router} does not leave")),
        };
        let links = way.met.windows(2);
        let cost = links.map(|pair| link_metric(table, pair[0], pair[1]).expect("a link"));
        let cost: u32 = cost.sum();
        let path = best(table, &distances, router, set).expect("the set holds a path");
        let reckoned = metric(table, &distances, router, path);
        let last = way.met[way.met.len() - 1];
        if cost > reckoned {
            Some(format!(
                "a packet from router {router} costs {cost} and not {reckoned}"
            ))
        } else if table.paths[way.exit].exit_point as usize != last {
            Some(format!(
                "a packet leaves at router {last} by another's path"
            ))
        } else {
            None
        }
    })
}
