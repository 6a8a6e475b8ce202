//! The tables that calls are timed on.

use crate::random::Random;
use crate::table::{Table, MOST_LINKS};
use crate::tables::{of_size, Size};

pub const ROUTERS: [usize; 4] = [4, 8, 16, 32];
pub const PATHS: [usize; 3] = [1, 16, 64];

/// So many tables of each shape.
pub const TABLES: usize = 8;

/// Tables of one size.
pub struct Shape {
    pub routers: usize,
    pub paths: usize,
    pub tables: Vec<Table>,
}

impl Shape {
    pub fn all() -> Vec<Shape> {
        let each = |routers| PATHS.map(|paths| Shape::of(routers, paths));
        ROUTERS.into_iter().flat_map(each).collect()
    }

    fn of(routers: usize, paths: usize) -> Shape {
        let size = Size {
            routers,
            links: (3 * routers).min(MOST_LINKS),
            sessions: 2 * routers,
            paths,
        };
        let mut random = Random::new(1);
        let tables = (0..TABLES).map(|_| of_size(&mut random, size));
        Shape {
            routers,
            paths,
            tables: tables.collect(),
        }
    }

    /// The numbers below `COLUMNS`, of links and sessions the average.
    pub fn columns(&self) -> String {
        let average = |count: fn(&Table) -> usize| {
            self.tables.iter().map(count).sum::<usize>() as f64 / TABLES as f64
        };
        let links = average(|table| table.links.len());
        let sessions = average(|table| table.sessions.len());
        format!(
            "{:7} {links:5.0} {sessions:8.0} {:5}",
            self.routers, self.paths
        )
    }
}

pub const COLUMNS: &str = "routers links sessions paths";
