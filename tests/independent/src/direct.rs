//! The call of a host (docs/HOST.md): the best path of every router, once the network has settled.

use crate::distances::Distances;
use crate::forwarding::best;
use crate::rules::five_stage;
use crate::sets::below;
use crate::table::{self, Table};

pub const UNDECLARED_PATH: u64 = 11;
pub const SHORT_BUFFER: u64 = 16;
pub const LEAST_BUFFER: usize = 32;

/// The byte of a router that has no path.
pub const NO_PATH: u8 = 255;

/// Answers 0, or the number of a refusal and 256 times its place.
pub fn direct(bytes: &[u8], injected: u64, buffer: &mut [u8]) -> u64 {
    direct_with(bytes, injected, buffer, choose)
}

/// The same, with the best paths found by `choose`: it is given the table, the paths that are
/// kept, at least one of them, and a byte for each router.
pub fn direct_with(
    bytes: &[u8],
    injected: u64,
    buffer: &mut [u8],
    choose: fn(&Table, u64, &mut [u8]),
) -> u64 {
    let table = match table::read(bytes) {
        Ok(table) => table,
        Err(refusal) => return refused(refusal.number as u64, refusal.place),
    };
    let undeclared = injected & !below(table.paths.len());
    if undeclared != 0 {
        return refused(UNDECLARED_PATH, undeclared.trailing_zeros() as usize);
    }
    if buffer.len() < LEAST_BUFFER {
        return refused(SHORT_BUFFER, LEAST_BUFFER);
    }
    let room = &mut buffer[..table.routers.len()];
    if injected == 0 {
        room.fill(NO_PATH);
    } else {
        choose(&table, five_stage(&table.paths, injected), room);
    }
    0
}

fn choose(table: &Table, kept: u64, room: &mut [u8]) {
    let distances = Distances::of(table);
    for (router, byte) in room.iter_mut().enumerate() {
        *byte = best(table, &distances, router, kept).map_or(NO_PATH, |path| path as u8);
    }
}

fn refused(number: u64, place: usize) -> u64 {
    number + 256 * place as u64
}

#[cfg(test)]
mod tests {
    use super::*;

    const TWO_CLUSTERS: &[u8] = include_bytes!("../../../examples/two-clusters.table");

    #[test]
    fn every_byte_behind_the_routers_stays() {
        let mut buffer = [7; 40];
        assert_eq!(direct(TWO_CLUSTERS, 0b111, &mut buffer), 0);
        assert_eq!(buffer[..6], [1, 2, 1, 1, 7, 7]);
        assert_eq!(direct(TWO_CLUSTERS, 0, &mut buffer), 0);
        assert_eq!(buffer[..6], [255, 255, 255, 255, 7, 7]);
        assert!(buffer[6..].iter().all(|&byte| byte == 7));
    }

    #[test]
    fn the_smallest_number_is_given() {
        let mut buffer = [7; 31];
        assert_eq!(direct(&[9], u64::MAX, &mut buffer), 1);
        assert_eq!(direct(TWO_CLUSTERS, 0b11000, &mut buffer), 11 + 256 * 3);
        assert_eq!(direct(TWO_CLUSTERS, 0b111, &mut buffer), 16 + 256 * 32);
        assert_eq!(buffer, [7; 31]);
    }
}
