//! A network of routers, and its calls (docs/PROTOCOL.md).

use crate::distances::Distances;
use crate::forwarding::{best, metric, way_by, Way};
use crate::lines::list;
use crate::passing::Passing;
use crate::refusals::{
    refuse, ALREADY_INJECTED, NOT_INJECTED, NO_ROUTER_NAMED, SHORT_BUFFER, UNDECLARED_PATH,
    UNDECLARED_ROUTER,
};
use crate::rules::Rule;
use crate::sets::{below, holds, members};
use crate::table::{self, Refusal, Table, MOST_ROUTERS};

const ROUNDS_TO_SETTLE: usize = 7;

/// The least lengths of the buffers of a trace and of a list.
pub const TRACE_BUFFER: usize = 32;
pub const LIST_BUFFER: usize = 512;

/// What the table declares, and what every router knows and advertises of it.
#[derive(Clone)]
pub struct Network {
    rule: Rule,
    table: Table,
    distances: Distances,
    passing: Passing,
    sets: Sets,
}

#[derive(Clone, Copy, Debug, Default, PartialEq, Eq)]
pub struct Sets {
    pub injected: u64,
    pub known: [u64; MOST_ROUTERS],
    pub advertised: [u64; MOST_ROUTERS],
}

/// A running network, with the calls that one offers.
#[derive(Clone)]
pub struct Running(Box<Network>);

/// A settled network, with the calls that one offers.
#[derive(Clone)]
pub struct Settled(Box<Network>);

impl Network {
    fn new(rule: Rule, table: Table) -> Network {
        Network {
            rule,
            distances: Distances::of(&table),
            passing: Passing::of(&table),
            table,
            sets: Sets::default(),
        }
    }

    pub fn table(&self) -> &Table {
        &self.table
    }

    pub fn sets(&self) -> &Sets {
        &self.sets
    }

    /// What the rule keeps of all injected paths.
    pub fn kept(&self) -> u64 {
        (self.rule)(&self.table.paths, self.sets.injected)
    }

    /// Whether every router advertises that.
    pub fn is_settled(&self) -> bool {
        let kept = self.kept();
        let advertised = &self.sets.advertised[..self.table.routers.len()];
        advertised.iter().all(|&set| set == kept)
    }

    /// The text of the list.
    pub fn lines(&self) -> String {
        list(&self.table, &self.distances, |v| self.sets.advertised[v])
    }

    pub fn best(&self, router: u32) -> Result<Option<usize>, Refusal> {
        let router = self.router(router)?;
        let set = self.sets.advertised[router];
        Ok(best(&self.table, &self.distances, router, set))
    }

    /// The metric of that best path at that router.
    pub fn metric(&self, router: u32) -> Result<Option<u32>, Refusal> {
        let path = self.best(router)?;
        let at = router as usize;
        Ok(path.map(|path| metric(&self.table, &self.distances, at, path)))
    }

    pub fn known(&self, router: u32) -> Result<u64, Refusal> {
        Ok(self.sets.known[self.router(router)?])
    }

    pub fn advertised(&self, router: u32) -> Result<u64, Refusal> {
        Ok(self.sets.advertised[self.router(router)?])
    }

    fn path(&self, path: u32) -> Result<usize, Refusal> {
        let path = path as usize;
        if path < self.table.paths.len() {
            Ok(path)
        } else {
            refuse(UNDECLARED_PATH, path)
        }
    }

    fn router(&self, router: u32) -> Result<usize, Refusal> {
        let router = router as usize;
        if router < self.table.routers.len() {
            Ok(router)
        } else {
            refuse(UNDECLARED_ROUTER, router)
        }
    }

    /// The injected paths with the router as exit point.
    fn own(&self, router: usize) -> u64 {
        self.sets.injected & self.passing.own(router)
    }

    /// What a router comes to know by a step.
    fn heard(&self, router: usize) -> u64 {
        self.own(router) | self.passing.heard(router, &self.sets.advertised)
    }

    /// Whenever what a router knows is set anew, it advertises what the rule keeps of that.
    fn know(&mut self, router: usize, known: u64) {
        self.sets.known[router] = known;
        self.sets.advertised[router] = (self.rule)(&self.table.paths, known);
    }

    fn exit_point(&self, path: usize) -> usize {
        self.table.paths[path].exit_point as usize
    }
}

impl Running {
    /// An empty network.
    pub fn new(rule: Rule) -> Running {
        Running(Box::new(Network::new(rule, Table::default())))
    }

    pub fn network(&self) -> &Network {
        &self.0
    }

    pub fn load(&mut self, bytes: &[u8]) -> Result<(), Refusal> {
        *self.0 = Network::new(self.0.rule, table::read(bytes)?);
        Ok(())
    }

    pub fn inject(&mut self, path: u32) -> Result<(), Refusal> {
        let network = &mut *self.0;
        let path = network.path(path)?;
        if holds(network.sets.injected, path) {
            return refuse(ALREADY_INJECTED, path);
        }
        network.sets.injected |= 1 << path;
        let router = network.exit_point(path);
        network.know(router, network.sets.known[router] | 1 << path);
        Ok(())
    }

    pub fn withdraw(&mut self, path: u32) -> Result<(), Refusal> {
        let network = &mut *self.0;
        let path = network.path(path)?;
        if !holds(network.sets.injected, path) {
            return refuse(NOT_INJECTED, path);
        }
        network.sets.injected &= !(1 << path);
        let router = network.exit_point(path);
        network.know(router, network.sets.known[router] & !(1 << path));
        Ok(())
    }

    pub fn restart(&mut self, router: u32) -> Result<(), Refusal> {
        let network = &mut *self.0;
        let router = network.router(router)?;
        network.know(router, network.own(router));
        Ok(())
    }

    /// All routers of the set read before any of them knows anything new.
    pub fn step(&mut self, routers: u32) -> Result<(), Refusal> {
        let network = &mut *self.0;
        let routers = routers as u64;
        let undeclared = routers & !below(network.table.routers.len());
        if undeclared != 0 {
            return refuse(UNDECLARED_ROUTER, undeclared.trailing_zeros() as usize);
        }
        if routers == 0 {
            return refuse(NO_ROUTER_NAMED, 0);
        }
        let mut known = [0; MOST_ROUTERS];
        for router in members(routers) {
            known[router] = network.heard(router);
        }
        for router in members(routers) {
            network.know(router, known[router]);
        }
        Ok(())
    }

    pub fn best(&self, router: u32) -> Result<Option<usize>, Refusal> {
        self.0.best(router)
    }

    pub fn settle(mut self) -> Settled {
        let network = &mut *self.0;
        for _ in 0..ROUNDS_TO_SETTLE {
            for router in 0..network.table.routers.len() {
                network.know(router, network.heard(router));
            }
        }
        Settled(self.0)
    }
}

impl Settled {
    pub fn network(&self) -> &Network {
        &self.0
    }

    pub fn best(&self, router: u32) -> Result<Option<usize>, Refusal> {
        self.0.best(router)
    }

    /// Answers how many routers the packet meets and the path by which it leaves.
    pub fn trace(&self, router: u32, met: &mut [u8]) -> Result<Option<(usize, usize)>, Refusal> {
        let network = &*self.0;
        let router = network.router(router)?;
        if met.len() < TRACE_BUFFER {
            return refuse(SHORT_BUFFER, TRACE_BUFFER);
        }
        let advertised = |at: usize| network.sets.advertised[at];
        let way = way_by(&network.table, &network.distances, router, advertised);
        Ok(way.map(|Way { met: routers, exit }| {
            for (byte, router) in met.iter_mut().zip(&routers) {
                *byte = *router as u8;
            }
            (routers.len(), exit)
        }))
    }

    /// Answers how many bytes it wrote.
    pub fn list(&self, buffer: &mut [u8]) -> Result<usize, Refusal> {
        if buffer.len() < LIST_BUFFER {
            return refuse(SHORT_BUFFER, LIST_BUFFER);
        }
        let text = self.0.lines();
        buffer[..text.len()].copy_from_slice(text.as_bytes());
        Ok(text.len())
    }

    pub fn reopen(self) -> Running {
        Running(self.0)
    }
}

#[cfg(test)]
mod tests {
    use super::*;
    use crate::direct::direct;
    use crate::lines;
    use crate::random::Random;
    use crate::rules::{compare_always, five_stage};
    use crate::{encode, tables};

    const TWO_CLUSTERS: &[u8] = include_bytes!("../../../examples/two-clusters.table");

    /// A network of the table with all its paths injected.
    fn injected(bytes: &[u8], rule: Rule) -> Running {
        let mut network = Running::new(rule);
        network.load(bytes).unwrap();
        for path in 0..network.network().table().paths.len() {
            network.inject(path as u32).unwrap();
        }
        network
    }

    fn refused<T>(answer: Result<T, Refusal>, number: u8, place: usize) {
        assert_eq!(answer.err(), Some(Refusal { number, place }));
    }

    fn met(network: &Settled, router: u32) -> (Vec<u8>, usize) {
        let mut buffer = [77; TRACE_BUFFER];
        let (count, exit) = network.trace(router, &mut buffer).unwrap().unwrap();
        assert!(buffer[count..].iter().all(|&byte| byte == 77));
        (buffer[..count].to_vec(), exit)
    }

    #[test]
    fn the_example_of_the_page() {
        let mut network = injected(TWO_CLUSTERS, five_stage);
        network.step(1 << 0).unwrap();
        assert_eq!(network.network().sets().known[0], 0b101);
        assert_eq!(network.best(0), Ok(Some(0)));
        assert_eq!(network.network().sets().known[2], 0);

        network.step(1 << 0 | 1 << 2).unwrap();
        assert_eq!(network.network().sets().known[0], 0b101);
        assert_eq!(network.network().sets().known[2], 0b111);
        assert_eq!(network.network().sets().advertised[2], 0b110);

        let network = network.settle();
        let best = [0, 1, 2, 3].map(|router| network.best(router).unwrap());
        assert_eq!(best, [Some(1), Some(2), Some(1), Some(1)]);
        assert_eq!(met(&network, 0), (vec![0, 2, 3], 1));

        let mut network = network.reopen();
        network.withdraw(1).unwrap();
        let network = network.settle();
        let text = "R0 P0 10\nR1 P0 0\nR2 P0 11\nR3 P0 15\n";
        assert_eq!(network.network().lines(), text);
        assert_eq!(met(&network, 3), (vec![3, 2, 0, 1], 0));
    }

    #[test]
    fn a_router_reads_its_peers_as_they_stood_before_the_call() {
        let mut network = injected(TWO_CLUSTERS, five_stage);
        network.step(0b1111).unwrap();
        assert_eq!(
            network.network().sets().known[..4],
            [0b101, 0b101, 0b010, 0b010]
        );
        network.step(0b1111).unwrap();
        assert_eq!(
            network.network().sets().known[..4],
            [0b111, 0b101, 0b111, 0b010]
        );
        assert!(!network.network().is_settled());
    }

    #[test]
    fn a_restart_and_a_withdrawal_tell_no_peer() {
        let mut network = injected(TWO_CLUSTERS, five_stage).settle().reopen();
        network.restart(0).unwrap();
        network.withdraw(1).unwrap();
        let sets = network.network().sets();
        assert_eq!(sets.known[..4], [0, 0b111, 0b110, 0b100]);
        assert_eq!(sets.advertised[..4], [0, 0b110, 0b110, 0b100]);
        network.restart(1).unwrap();
        assert_eq!(network.network().sets().known[1], 0b101);
    }

    #[test]
    fn a_load_replaces_the_network() {
        let mut network = injected(TWO_CLUSTERS, five_stage);
        network.load(TWO_CLUSTERS).unwrap();
        assert_eq!(network.network().sets(), &Sets::default());
        assert!(network.network().is_settled());
    }

    #[test]
    fn another_rule() {
        let network = injected(TWO_CLUSTERS, compare_always).settle();
        let text = "R0 P1 5\nR1 P1 15\nR2 P1 4\nR3 P1 0\n";
        assert_eq!(network.network().lines(), text);
    }

    #[test]
    fn refusals() {
        let mut network = Running::new(five_stage);
        refused(network.load(&[]), 8, 0);
        refused(network.inject(0), 11, 0);
        refused(network.step(0), 13, 0);
        refused(network.best(0), 12, 0);

        network.load(TWO_CLUSTERS).unwrap();
        network.inject(2).unwrap();
        let before = *network.network().sets();
        refused(network.load(&[9]), 1, 0);
        refused(network.inject(2), 14, 2);
        refused(network.inject(64 + 2), 11, 64 + 2);
        refused(network.withdraw(1), 15, 1);
        refused(network.withdraw(u32::MAX), 11, u32::MAX as usize);
        refused(network.restart(4), 12, 4);
        refused(network.restart(32), 12, 32);
        refused(network.step(0), 13, 0);
        refused(network.step(1 << 31 | 1 << 5 | 1), 12, 5);
        refused(network.best(4), 12, 4);
        assert_eq!(network.network().sets(), &before);
        assert_eq!(network.network().table().routers.len(), 4);

        let network = network.settle();
        let mut buffer = [7; LIST_BUFFER - 1];
        refused(network.best(4), 12, 4);
        refused(network.trace(4, &mut buffer[..31]), 12, 4);
        refused(network.trace(0, &mut buffer[..31]), 16, 32);
        refused(network.list(&mut buffer), 16, 512);
        assert_eq!(buffer, [7; LIST_BUFFER - 1]);
    }

    #[test]
    fn where_nothing_is_injected() {
        let mut network = Running::new(five_stage);
        network.load(TWO_CLUSTERS).unwrap();
        let network = network.settle();
        let mut buffer = [7; TRACE_BUFFER];
        assert_eq!(network.trace(3, &mut buffer), Ok(None));
        assert_eq!(buffer, [7; TRACE_BUFFER]);
        assert_eq!(network.best(3), Ok(None));
    }

    #[test]
    fn a_settled_network_is_as_the_direct_answer_and_the_lines_of_settle() {
        let mut random = Random::new(1);
        for _ in 0..200 {
            let bytes = encode::records(&tables::any(&mut random)).concat();
            let network = injected(&bytes, five_stage).settle();
            let mut buffer = [7; LIST_BUFFER + 1];
            let written = network.list(&mut buffer).unwrap();
            let text = lines::lines(&bytes);
            assert_eq!(&buffer[..written], text.as_bytes());
            assert!(buffer[written..].iter().all(|&byte| byte == 7));

            let table = network.network().table();
            let mut bests = [255; 32];
            assert_eq!(direct(&bytes, below(table.paths.len()), &mut bests), 0);
            for (router, &best) in bests[..table.routers.len()].iter().enumerate() {
                let answer = network.best(router as u32).unwrap();
                assert_eq!(answer.map_or(255, |path| path as u8), best);
            }
        }
    }
}
