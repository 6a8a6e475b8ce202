//! Best paths, next hops, and the way of a packet (docs/PROTOCOL.md).

use crate::distances::Distances;
use crate::sets::{below, members};
use crate::table::Table;

/// The distance to the exit point of the path, and its exit cost.
pub fn metric(table: &Table, distances: &Distances, router: usize, path: usize) -> u32 {
    let path = &table.paths[path];
    distances.between(router, path.exit_point as usize) + path.exit_cost as u32
}

/// The router's choice of the set: one of its own paths if there is any, then by the least
/// metric, speaker number and path number.
pub fn best(table: &Table, distances: &Distances, router: usize, set: u64) -> Option<usize> {
    let paths = &table.paths;
    let declared = set & below(paths.len());
    let own = members(declared).filter(|&path| paths[path].exit_point as usize == router);
    let own = own.fold(0, |own, path| own | 1 << path);
    let counting = if own == 0 { declared } else { own };
    members(counting).min_by_key(|&path| {
        let metric = metric(table, distances, router, path);
        (metric, paths[path].speaker, path)
    })
}

/// Where a packet goes whose router takes the path: out, or to a router that a link joins and that
/// lies on a least way to the exit point.
pub fn next_hop(table: &Table, distances: &Distances, router: usize, path: usize) -> Hop {
    let exit_point = table.paths[path].exit_point as usize;
    if exit_point == router {
        return Hop::Out;
    }
    let whole = distances.between(router, exit_point);
    let next = (0..table.routers.len()).find(|&next| {
        let onwards = distances.between(next, exit_point);
        link_metric(table, router, next).map_or(false, |link| link + onwards == whole)
    });
    Hop::To(next.expect("the links join all routers"))
}

/// The metric of the link between two routers, where there is one.
pub fn link_metric(table: &Table, one: usize, other: usize) -> Option<u32> {
    let link = table.links.iter().find(|link| {
        let ends = (link.from as usize, link.to as usize);
        ends == (one, other) || ends == (other, one)
    });
    link.map(|link| link.metric as u32)
}

#[derive(Clone, Copy, Debug, PartialEq, Eq)]
pub enum Hop {
    Out,
    To(usize),
}

/// The routers that a packet meets, first and last among them, and the path by which it leaves.
#[derive(Clone, Debug, PartialEq, Eq)]
pub struct Way {
    pub met: Vec<usize>,
    pub exit: usize,
}

/// The way of a packet where all routers choose from one set.
pub fn way(table: &Table, distances: &Distances, router: usize, set: u64) -> Option<Way> {
    way_by(table, distances, router, |_| set)
}

/// The same where each router has a set to choose from. Follows a packet as long as it meets no
/// router twice: none if there is no path, or if it runs in a circle.
pub fn way_by(
    table: &Table,
    distances: &Distances,
    router: usize,
    sets: impl Fn(usize) -> u64,
) -> Option<Way> {
    let mut met = vec![router];
    loop {
        let at = met[met.len() - 1];
        let exit = best(table, distances, at, sets(at))?;
        match next_hop(table, distances, at, exit) {
            Hop::Out => return Some(Way { met, exit }),
            Hop::To(next) if met.contains(&next) => return None,
            Hop::To(next) => met.push(next),
        }
    }
}

#[cfg(test)]
mod tests {
    use super::*;
    use crate::table;

    const TWO_CLUSTERS: &[u8] = include_bytes!("../../../examples/two-clusters.table");

    #[test]
    fn the_example_of_the_page() {
        let table = table::read(TWO_CLUSTERS).unwrap();
        let distances = Distances::of(&table);
        let of = |router, set| {
            let path = best(&table, &distances, router, set).unwrap();
            let Way { met, exit } = way(&table, &distances, router, set).unwrap();
            (path, metric(&table, &distances, router, path), met, exit)
        };
        assert_eq!(of(0, 0b110), (1, 5, vec![0, 2, 3], 1));
        assert_eq!(of(1, 0b110), (2, 3, vec![1], 2));
        assert_eq!(of(2, 0b110), (1, 4, vec![2, 3], 1));
        assert_eq!(of(3, 0b110), (1, 0, vec![3], 1));
        for (router, metric) in [10, 0, 11, 15].into_iter().enumerate() {
            let (path, reckoned, _, _) = of(router, 0b101);
            assert_eq!((path, reckoned), (0, metric));
        }
    }
}
