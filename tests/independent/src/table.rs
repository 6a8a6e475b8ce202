//! Bytes to a table, or the refusal of the first fault (docs/FORMAT.md, docs/REFUSALS.md).

pub const MOST_ROUTERS: usize = 32;
pub const MOST_LINKS: usize = 128;
pub const MOST_SESSIONS: usize = 64;
pub const MOST_PATHS: usize = 64;

pub const ROUTER: u8 = 1;
pub const LINK: u8 = 2;
pub const SESSION: u8 = 3;
pub const PATH: u8 = 4;

#[derive(Clone, Copy, Debug, PartialEq, Eq)]
pub struct Router {
    pub cluster: u8,
    pub reflector: bool,
}

#[derive(Clone, Copy, Debug, PartialEq, Eq)]
pub struct Link {
    pub from: u8,
    pub to: u8,
    pub metric: u16,
}

#[derive(Clone, Copy, Debug, PartialEq, Eq)]
pub struct Session {
    pub from: u8,
    pub to: u8,
}

#[derive(Clone, Copy, Debug, PartialEq, Eq)]
pub struct ExitPath {
    pub exit_point: u8,
    pub neighbour: u32,
    pub preference: u32,
    pub length: u8,
    pub med: u32,
    pub exit_cost: u16,
    pub speaker: u32,
}

#[derive(Clone, Debug, Default, PartialEq, Eq)]
pub struct Table {
    pub routers: Vec<Router>,
    pub links: Vec<Link>,
    pub sessions: Vec<Session>,
    pub paths: Vec<ExitPath>,
}

#[derive(Clone, Copy, Debug, PartialEq, Eq)]
pub struct Refusal {
    pub number: u8,
    pub place: usize,
}

/// Which routers a pair joins to each router, for links or for sessions.
type Joined = [u32; MOST_ROUTERS];

/// Why a record is refused: the number of the fault.
type Fault = u8;

const UNKNOWN_KIND: Fault = 1;
const CUT_SHORT: Fault = 2;
const KIND_FALLS: Fault = 3;
const TOO_MANY: Fault = 4;
const OUT_OF_RANGE: Fault = 5;
const BAD_PAIR: Fault = 6;
const BAD_SESSION: Fault = 7;
const NO_ROUTER: Fault = 8;
const NO_REFLECTOR: Fault = 9;
const NOT_JOINED: Fault = 10;

pub fn read(bytes: &[u8]) -> Result<Table, Refusal> {
    let mut reader = Reader::new();
    let mut place = 0;
    while place < bytes.len() {
        match reader.record(&bytes[place..]) {
            Ok(length) => place += length,
            Err(number) => return Err(Refusal { number, place }),
        }
    }
    reader.whole()?;
    Ok(reader.table)
}

/// Bytes of a record of a known kind, its kind byte among them.
pub fn record_length(kind: u8) -> Option<usize> {
    match kind {
        ROUTER | SESSION => Some(3),
        LINK => Some(5),
        PATH => Some(21),
        _ => None,
    }
}

fn check(holds: bool, fault: Fault) -> Result<(), Fault> {
    if holds {
        Ok(())
    } else {
        Err(fault)
    }
}

/// The records read so far.
struct Reader {
    table: Table,
    kind: u8,
    linked: Joined,
    in_session: Joined,
}

impl Reader {
    fn new() -> Reader {
        Reader {
            table: Table {
                routers: Vec::with_capacity(MOST_ROUTERS),
                links: Vec::with_capacity(MOST_LINKS),
                sessions: Vec::with_capacity(MOST_SESSIONS),
                paths: Vec::with_capacity(MOST_PATHS),
            },
            kind: ROUTER,
            linked: [0; MOST_ROUTERS],
            in_session: [0; MOST_ROUTERS],
        }
    }

    /// Reads the record that the bytes begin with and answers its length. Every check comes
    /// before those of a higher number.
    fn record(&mut self, bytes: &[u8]) -> Result<usize, Fault> {
        let kind = bytes[0];
        let length = record_length(kind).ok_or(UNKNOWN_KIND)?;
        let body = bytes.get(1..length).ok_or(CUT_SHORT)?;
        check(kind >= self.kind, KIND_FALLS)?;
        self.kind = kind;
        match kind {
            ROUTER => self.router(body)?,
            LINK => self.link(body)?,
            SESSION => self.session(body)?,
            _ => self.path(body)?,
        }
        Ok(length)
    }

    fn router(&mut self, body: &[u8]) -> Result<(), Fault> {
        check(self.table.routers.len() < MOST_ROUTERS, TOO_MANY)?;
        let (cluster, role) = (body[0], body[1]);
        check(cluster < 32 && role < 2, OUT_OF_RANGE)?;
        let reflector = role == 1;
        self.table.routers.push(Router { cluster, reflector });
        Ok(())
    }

    fn link(&mut self, body: &[u8]) -> Result<(), Fault> {
        check(self.table.links.len() < MOST_LINKS, TOO_MANY)?;
        let (from, to) = (body[0], body[1]);
        let metric = short(&body[2..]);
        check(self.declared(from) && self.declared(to), OUT_OF_RANGE)?;
        check(metric > 0, OUT_OF_RANGE)?;
        join(&mut self.linked, from, to)?;
        self.table.links.push(Link { from, to, metric });
        Ok(())
    }

    fn session(&mut self, body: &[u8]) -> Result<(), Fault> {
        check(self.table.sessions.len() < MOST_SESSIONS, TOO_MANY)?;
        let (from, to) = (body[0], body[1]);
        check(self.declared(from) && self.declared(to), OUT_OF_RANGE)?;
        join(&mut self.in_session, from, to)?;
        let one = self.table.routers[from as usize];
        let other = self.table.routers[to as usize];
        check(!one.reflector && one == other, BAD_SESSION)?;
        self.table.sessions.push(Session { from, to });
        Ok(())
    }

    fn path(&mut self, body: &[u8]) -> Result<(), Fault> {
        check(self.table.paths.len() < MOST_PATHS, TOO_MANY)?;
        let path = ExitPath {
            exit_point: body[0],
            neighbour: word(&body[1..]),
            preference: word(&body[5..]),
            length: body[9],
            med: word(&body[10..]),
            exit_cost: short(&body[14..]),
            speaker: word(&body[16..]),
        };
        check(
            self.declared(path.exit_point) && path.length > 0,
            OUT_OF_RANGE,
        )?;
        self.table.paths.push(path);
        Ok(())
    }

    fn declared(&self, router: u8) -> bool {
        (router as usize) < self.table.routers.len()
    }

    /// The faults that no single record has.
    fn whole(&self) -> Result<(), Refusal> {
        let routers = &self.table.routers;
        let refuse = |number, router| {
            let place = 3 * router;
            Err(Refusal { number, place })
        };
        if routers.is_empty() {
            return refuse(NO_ROUTER, 0);
        }
        let served = routers.iter().filter(|router| router.reflector);
        let served = served.fold(0u32, |set, router| set | 1 << router.cluster);
        if let Some(client) = routers.iter().position(|r| served >> r.cluster & 1 == 0) {
            return refuse(NO_REFLECTOR, client);
        }
        let lowest = self.reached().trailing_ones() as usize;
        if lowest < routers.len() {
            return refuse(NOT_JOINED, lowest);
        }
        Ok(())
    }

    /// The routers that links join to router 0, itself among them.
    fn reached(&self) -> u32 {
        let mut reached = 1u32;
        let mut next = reached;
        while next != 0 {
            let router = next.trailing_zeros() as usize;
            next &= next - 1;
            let new = self.linked[router] & !reached;
            reached |= new;
            next |= new;
        }
        reached
    }
}

/// Joins two declared routers that are different and not joined yet.
fn join(joined: &mut Joined, from: u8, to: u8) -> Result<(), Fault> {
    check(from != to, BAD_PAIR)?;
    check(joined[from as usize] >> to & 1 == 0, BAD_PAIR)?;
    joined[from as usize] |= 1 << to;
    joined[to as usize] |= 1 << from;
    Ok(())
}

fn short(bytes: &[u8]) -> u16 {
    u16::from_be_bytes([bytes[0], bytes[1]])
}

fn word(bytes: &[u8]) -> u32 {
    u32::from_be_bytes([bytes[0], bytes[1], bytes[2], bytes[3]])
}

#[cfg(test)]
mod tests {
    use super::*;

    fn refused(bytes: &[u8], number: u8, place: usize) {
        assert_eq!(read(bytes), Err(Refusal { number, place }));
    }

    #[test]
    fn records() {
        refused(&[1, 0, 1, 5], 1, 3);
        refused(&[1, 0, 1, 2, 0], 2, 3);
        refused(&[1, 0, 1, 1, 0, 1, 2, 0, 1, 0, 1, 1, 0], 2, 11);
        refused(&[1, 0, 1, 1, 0, 1, 2, 0, 1, 0, 1, 1, 0, 1], 3, 11);
    }

    #[test]
    fn the_thirty_third_router_is_one_too_many_whatever_its_cluster() {
        let mut bytes = [1, 0, 1].repeat(32);
        bytes.extend([1, 32, 1]);
        refused(&bytes, 4, 96);
    }

    #[test]
    fn fields_and_pairs() {
        let two = [1, 0, 1, 1, 0, 1];
        let with = |record: &[u8]| [&two[..], record].concat();
        refused(&[1, 32, 1], 5, 0);
        refused(&[1, 0, 2], 5, 0);
        refused(&with(&[2, 2, 2, 0, 1]), 5, 6);
        refused(&with(&[2, 0, 1, 0, 0]), 5, 6);
        refused(&with(&[2, 1, 1, 0, 1]), 6, 6);
        refused(&with(&[2, 0, 1, 0, 1, 2, 1, 0, 0, 1]), 6, 11);
        refused(&with(&[2, 0, 1, 0, 1, 3, 0, 1]), 7, 11);
    }

    #[test]
    fn the_whole() {
        refused(&[], 8, 0);
        refused(&[1, 0, 1, 1, 1, 0], 9, 3);
        refused(&[1, 0, 1, 1, 0, 0], 10, 3);
    }
}
