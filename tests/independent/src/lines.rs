//! The lines of routers in a list, and what the program `settle` prints on standard output
//! (docs/PROTOCOL.md, docs/REFUSALS.md).

use crate::distances::Distances;
use crate::forwarding::{best, metric};
use crate::rules::five_stage;
use crate::table::{self, Table};
use std::fmt::Write;

pub fn lines(bytes: &[u8]) -> String {
    let table = match table::read(bytes) {
        Ok(table) => table,
        Err(refusal) => return format!("{} {}\n", refusal.number, refusal.place),
    };
    let kept = five_stage(&table.paths, u64::MAX);
    let distances = Distances::of(&table);
    list(&table, &distances, |_| kept)
}

/// The best path of each router of its set, and the metric of that.
pub fn list(table: &Table, distances: &Distances, sets: impl Fn(usize) -> u64) -> String {
    let mut text = String::new();
    for router in 0..table.routers.len() {
        let written = match best(table, distances, router, sets(router)) {
            None => writeln!(text, "R{router} - -"),
            Some(path) => {
                let metric = metric(table, distances, router, path);
                writeln!(text, "R{router} P{path} {metric}")
            }
        };
        written.expect("a string takes every line");
    }
    text
}

#[cfg(test)]
mod tests {
    use super::*;

    #[test]
    fn the_examples() {
        let two_clusters = include_bytes!("../../../examples/two-clusters.table");
        assert_eq!(lines(two_clusters), "R0 P1 5\nR1 P2 3\nR2 P1 4\nR3 P1 0\n");
        assert_eq!(lines(&[1, 0, 1]), "R0 - -\n");
        assert_eq!(lines(&[]), "8 0\n");
    }
}
