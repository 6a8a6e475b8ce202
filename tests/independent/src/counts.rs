//! How many tables were answered how, and of which sizes they were.

use crate::cases::Asked;
use crate::refusals::NAMES;
use crate::table::{Table, MOST_ROUTERS};
use crate::tables::FULL;

/// The refusals that the library's call can come to.
const REFUSALS: [usize; 12] = [1, 2, 3, 4, 5, 6, 7, 8, 9, 10, 11, 16];

/// So many tables must reach every size.
const ENOUGH: u64 = 20_000;

#[derive(Default)]
pub struct Counts {
    tables: u64,
    by_number: [u64; 17],
    well_formed: u64,
    /// Of the well-formed tables, those of one router, of two, and so on.
    by_routers: [u64; MOST_ROUTERS],
    /// Those with all the links, sessions and paths that a table can have, and with all of these
    /// and all routers.
    at_limits: [u64; 4],
    /// Those of which `cases` was asked for the records, the rules and the ways.
    by_asked: [u64; 3],
}

impl Counts {
    /// The table is given if it is well-formed.
    pub fn count(&mut self, answer: u64, table: Option<&Table>, asked: Asked) {
        self.tables += 1;
        self.by_number[(answer & 255) as usize] += 1;
        if let Some(table) = table {
            self.well_formed += 1;
            self.by_routers[table.routers.len() - 1] += 1;
            let [links, sessions, paths] = [
                table.links.len() == FULL.links,
                table.sessions.len() == FULL.sessions,
                table.paths.len() == FULL.paths,
            ];
            let all = links && sessions && paths && table.routers.len() == FULL.routers;
            let at_limits = [links, sessions, paths, all];
            add(&mut self.at_limits, &at_limits.map(u64::from));
            self.by_asked[asked as usize] += 1;
        }
    }

    pub fn add(&mut self, other: &Counts) {
        self.tables += other.tables;
        add(&mut self.by_number, &other.by_number);
        self.well_formed += other.well_formed;
        add(&mut self.by_routers, &other.by_routers);
        add(&mut self.at_limits, &other.at_limits);
        add(&mut self.by_asked, &other.by_asked);
    }

    pub fn print(&self) {
        println!("{} tables, no difference", self.tables);
        for number in REFUSALS {
            let (what, times) = (NAMES[number], self.by_number[number]);
            println!("refused with {number:2}, {what}: {times}");
        }
        println!("well-formed: {}", self.well_formed);
        let least = self.by_routers.iter().min().expect("a number");
        println!("of each number of routers from 1 to {MOST_ROUTERS}: {least} or more");
        let [links, sessions, paths, all] = self.at_limits;
        println!(
            "of {} links: {links}, of {} sessions: {sessions}, of {} paths: {paths}",
            FULL.links, FULL.sessions, FULL.paths
        );
        println!("as large as a table can be: {all}");
        if self.tables < ENOUGH {
            println!("fewer than {ENOUGH} tables need not reach every size");
        }
        let [records, rules, ways] = self.by_asked;
        println!("asked of cases: records of {records}, rules of {rules}, ways of {ways}");
    }

    /// What the tables should have reached and did not, if anything.
    pub fn missing(&self) -> Option<&'static str> {
        let reached = |&number: &usize| self.by_number[number] > 0;
        let mut sizes = self.by_routers.iter().chain(&self.at_limits);
        if !REFUSALS.iter().all(reached) {
            Some("some refusal was never reached")
        } else if self.well_formed * 3 < self.tables {
            Some("fewer than a third of the tables were well-formed")
        } else if self.tables >= ENOUGH && sizes.any(|&tables| tables == 0) {
            Some("some size was never reached")
        } else {
            None
        }
    }
}

/// Adds each number to the one in its place.
pub fn add(numbers: &mut [u64], others: &[u64]) {
    for (number, other) in numbers.iter_mut().zip(others) {
        *number += other;
    }
}

#[cfg(test)]
mod tests {
    use super::*;

    #[test]
    fn enough_tables_must_reach_every_size() {
        let mut counts = Counts {
            tables: ENOUGH,
            by_number: [1; 17],
            well_formed: ENOUGH,
            by_routers: [1; MOST_ROUTERS],
            at_limits: [1; 4],
            by_asked: [1; 3],
        };
        assert_eq!(counts.missing(), None);
        counts.by_routers[30] = 0;
        assert!(counts.missing().is_some());
        counts.tables -= 1;
        assert_eq!(counts.missing(), None);
    }
}
