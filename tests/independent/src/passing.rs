//! Who are peers, and which paths pass from one to the other (docs/PROTOCOL.md).

use crate::table::{Table, MOST_ROUTERS};

/// For each two routers of a table, what passes between them of what is advertised.
#[derive(Clone)]
pub struct Passing {
    /// The paths that leave at each router.
    own: [u64; MOST_ROUTERS],
    /// Of each router, what it is passed by each.
    passed: [[u64; MOST_ROUTERS]; MOST_ROUTERS],
}

impl Passing {
    pub fn of(table: &Table) -> Passing {
        let count = table.routers.len();
        let paths_where = |is: &dyn Fn(usize) -> bool| {
            let paths = (0..table.paths.len()).filter(|&path| is(path));
            paths.fold(0, |set, path| set | 1 << path)
        };
        let mut passing = Passing {
            own: [0; MOST_ROUTERS],
            passed: [[0; MOST_ROUTERS]; MOST_ROUTERS],
        };
        for to in 0..count {
            passing.own[to] = paths_where(&|path| exit_point(table, path) == to);
            for from in (0..count).filter(|&from| peers(table, from, to)) {
                passing.passed[to][from] = paths_where(&|path| passes(table, path, from, to));
            }
        }
        passing
    }

    pub fn own(&self, router: usize) -> u64 {
        self.own[router]
    }

    /// All that the router is passed, where this is what each advertises.
    pub fn heard(&self, router: usize, advertised: &[u64; MOST_ROUTERS]) -> u64 {
        let passed = self.passed[router].iter().zip(advertised);
        passed.fold(0, |heard, (passed, advertised)| heard | passed & advertised)
    }
}

fn exit_point(table: &Table, path: usize) -> usize {
    table.paths[path].exit_point as usize
}

fn peers(table: &Table, one: usize, other: usize) -> bool {
    let (a, b) = (table.routers[one], table.routers[other]);
    let in_session = || {
        table.sessions.iter().any(|session| {
            let ends = (session.from as usize, session.to as usize);
            ends == (one, other) || ends == (other, one)
        })
    };
    one != other
        && (a.reflector && b.reflector
            || a.reflector != b.reflector && a.cluster == b.cluster
            || in_session())
}

/// Whether a path that one advertises is passed to its peer.
fn passes(table: &Table, path: usize, from: usize, to: usize) -> bool {
    let exit_point = exit_point(table, path);
    let [sender, receiver, exit] = [from, to, exit_point].map(|router| table.routers[router]);
    let of_a_client = !exit.reflector && exit.cluster == sender.cluster;
    let to_a_client = !receiver.reflector && receiver.cluster == sender.cluster;
    let across = sender.reflector && receiver.reflector && sender.cluster != receiver.cluster;
    from == exit_point
        || across && of_a_client
        || sender.reflector && to_a_client && to != exit_point
}

#[cfg(test)]
mod tests {
    use super::*;
    use crate::table::{ExitPath, Router, Session};

    /// Reflectors 0 and 1 of cluster 0 with clients 2, 3 and 4, of which the first two have a
    /// session; reflector 5 of cluster 1 with client 6. Path n leaves at router n.
    fn table() -> Table {
        let router = |cluster, reflector| Router { cluster, reflector };
        let path = |exit_point| ExitPath {
            exit_point,
            neighbour: 1,
            preference: 1,
            length: 1,
            med: 1,
            exit_cost: 1,
            speaker: 1,
        };
        let reflectors = [true, true, false, false, false];
        let mut routers: Vec<Router> = reflectors.map(|is| router(0, is)).into();
        routers.extend([router(1, true), router(1, false)]);
        Table {
            routers,
            links: Vec::new(),
            sessions: vec![Session { from: 3, to: 2 }],
            paths: (0..7).map(path).collect(),
        }
    }

    #[test]
    fn each_pair() {
        let passing = Passing::of(&table());
        let passed = |from: usize, to: usize| passing.passed[to][from];
        // To itself, and between clients without a session.
        assert_eq!([passed(0, 0), passed(2, 4), passed(2, 6)], [0; 3]);
        // Between clients with one.
        assert_eq!([passed(2, 3), passed(3, 2)], [1 << 2, 1 << 3]);
        // Between reflectors of one cluster, and of two.
        assert_eq!([passed(0, 1), passed(1, 0)], [1, 1 << 1]);
        assert_eq!([passed(0, 5), passed(5, 0)], [0b0011101, 0b1100000]);
        // To a client of the cluster, from it, and to one of another.
        assert_eq!([passed(0, 2), passed(1, 2)], [0b1111011; 2]);
        assert_eq!([passed(2, 0), passed(6, 5)], [1 << 2, 1 << 6]);
        assert_eq!([passed(0, 6), passed(6, 0)], [0; 2]);
    }

    #[test]
    fn what_is_heard() {
        let table = table();
        let passing = Passing::of(&table);
        assert_eq!(passing.own(4), 1 << 4);
        let mut advertised = [0; MOST_ROUTERS];
        advertised[0] = 0b0101000;
        advertised[3] = 0b1111111;
        assert_eq!(passing.heard(2, &advertised), 0b0101000);
        assert_eq!(passing.heard(5, &advertised), 0b0001000);
    }
}
