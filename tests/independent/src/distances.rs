//! Least distances between all routers, by way of one router more at a time (docs/PROTOCOL.md).

use crate::table::{Table, MOST_ROUTERS};

/// How far it is from each router to each.
#[derive(Clone)]
pub struct Distances([[u32; MOST_ROUTERS]; MOST_ROUTERS]);

/// No way is known. Two of them still fit in 32 bits.
const FAR: u32 = 1 << 30;

impl Distances {
    pub fn of(table: &Table) -> Distances {
        let mut rows = [[FAR; MOST_ROUTERS]; MOST_ROUTERS];
        for (router, row) in rows.iter_mut().enumerate() {
            row[router] = 0;
        }
        for link in &table.links {
            let (from, to) = (link.from as usize, link.to as usize);
            rows[from][to] = link.metric as u32;
            rows[to][from] = link.metric as u32;
        }
        let count = table.routers.len();
        for via in 0..count {
            let onwards = rows[via];
            for row in &mut rows[..count] {
                let first = row[via];
                if first < FAR {
                    for (least, rest) in row.iter_mut().zip(&onwards) {
                        *least = (*least).min(first + rest);
                    }
                }
            }
        }
        Distances(rows)
    }

    pub fn between(&self, from: usize, to: usize) -> u32 {
        self.0[from][to]
    }
}
