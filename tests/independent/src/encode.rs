//! A table to its records, whether it is well-formed or not.

use crate::table::{ExitPath, Link, Router, Session, Table, LINK, PATH, ROUTER, SESSION};

/// One record: its kind byte and its body.
pub type Record = Vec<u8>;

pub fn records(table: &Table) -> Vec<Record> {
    let routers = table.routers.iter().map(router);
    let links = table.links.iter().map(link);
    let sessions = table.sessions.iter().map(session);
    let paths = table.paths.iter().map(path);
    routers.chain(links).chain(sessions).chain(paths).collect()
}

pub fn router(router: &Router) -> Record {
    vec![ROUTER, router.cluster, router.reflector as u8]
}

pub fn link(link: &Link) -> Record {
    let mut record = vec![LINK, link.from, link.to];
    record.extend(link.metric.to_be_bytes());
    record
}

pub fn session(session: &Session) -> Record {
    vec![SESSION, session.from, session.to]
}

pub fn path(path: &ExitPath) -> Record {
    let mut record = vec![PATH, path.exit_point];
    record.extend(path.neighbour.to_be_bytes());
    record.extend(path.preference.to_be_bytes());
    record.push(path.length);
    record.extend(path.med.to_be_bytes());
    record.extend(path.exit_cost.to_be_bytes());
    record.extend(path.speaker.to_be_bytes());
    record
}

#[cfg(test)]
mod tests {
    use super::*;
    use crate::random::Random;
    use crate::{table, tables};

    #[test]
    fn what_is_written_is_read_again() {
        let mut random = Random::new(1);
        for _ in 0..1000 {
            let table = tables::any(&mut random);
            assert_eq!(table::read(&records(&table).concat()), Ok(table));
        }
    }
}
