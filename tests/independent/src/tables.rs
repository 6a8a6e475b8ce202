//! Random well-formed tables.

use crate::random::Random;
use crate::table::{
    ExitPath, Link, Router, Session, Table, MOST_LINKS, MOST_PATHS, MOST_ROUTERS, MOST_SESSIONS,
};

/// How many of each a table shall have. Of links and sessions there are fewer where so many do
/// not fit.
#[derive(Clone, Copy)]
pub struct Size {
    pub routers: usize,
    pub links: usize,
    pub sessions: usize,
    pub paths: usize,
}

pub const FULL: Size = Size {
    routers: MOST_ROUTERS,
    links: MOST_LINKS,
    sessions: MOST_SESSIONS,
    paths: MOST_PATHS,
};

/// A table of any size, often small and often as large as can be.
pub fn any(random: &mut Random) -> Table {
    let up_to = |random: &mut Random, most| match random.below(4) {
        0 => most,
        1 => random.below(4),
        _ => random.between(0, most),
    };
    let size = match random.below(8) {
        0 => FULL,
        _ => Size {
            routers: up_to(random, MOST_ROUTERS).max(1),
            links: up_to(random, MOST_LINKS),
            sessions: up_to(random, MOST_SESSIONS),
            paths: up_to(random, MOST_PATHS),
        },
    };
    of_size(random, size)
}

/// A table whose 32 routers the links join in a row. Either all exits are at one end of it or near
/// that; or they are anywhere, and as all are kept and some cost much, packets leave on their way.
pub fn line(random: &mut Random) -> Table {
    let size = Size {
        links: MOST_ROUTERS - 1,
        sessions: random.between(0, MOST_SESSIONS),
        paths: random.between(1, MOST_PATHS),
        ..FULL
    };
    let mut table = of_size(random, size);
    let mut row: Vec<u8> = (0..MOST_ROUTERS as u8).collect();
    random.shuffle(&mut row);
    for (link, ends) in table.links.iter_mut().zip(row.windows(2)) {
        (link.from, link.to) = either_way(random, (ends[0], ends[1]));
    }
    random.shuffle(&mut table.links);
    if random.once_in(3) {
        let like = table.paths[0];
        for path in &mut table.paths {
            path.exit_point = random.pick(&row);
            path.exit_cost = random.pick(&[0, 1000, 65_535]);
            path.preference = like.preference;
            path.length = like.length;
            path.med = like.med;
        }
    } else {
        let near = random.pick(&[1, 1, 1, 2, 8]);
        for path in &mut table.paths {
            path.exit_point = row[random.below(near)];
        }
    }
    table
}

pub fn of_size(random: &mut Random, size: Size) -> Table {
    let routers = routers(random, size);
    let links = links(random, size);
    let sessions = sessions(random, size, &routers);
    let paths = paths(random, size);
    Table {
        routers,
        links,
        sessions,
        paths,
    }
}

/// Clusters are few and clients many where many sessions are wanted. A client's cluster always
/// gets a reflector.
fn routers(random: &mut Random, size: Size) -> Vec<Router> {
    let crowded = size.sessions >= 2 * size.routers;
    let most_clusters = if crowded { 2 } else { size.routers };
    let count = random.between(1, most_clusters.min(size.routers));
    let mut clusters: Vec<u8> = (0..32).collect();
    random.shuffle(&mut clusters);
    let reflectors_once_in = if crowded { 8 } else { random.between(1, 4) };
    let mut routers: Vec<Router> = (0..size.routers)
        .map(|_| Router {
            cluster: random.pick(&clusters[..count]),
            reflector: random.once_in(reflectors_once_in),
        })
        .collect();
    for &cluster in &clusters[..count] {
        let of_cluster = |router: &Router| router.cluster == cluster;
        let members: Vec<usize> = (0..size.routers)
            .filter(|&router| of_cluster(&routers[router]))
            .collect();
        if !members.is_empty() && members.iter().all(|&router| !routers[router].reflector) {
            routers[random.pick(&members)].reflector = true;
        }
    }
    routers
}

/// First a tree over all routers, so that they are joined; then any others.
fn links(random: &mut Random, size: Size) -> Vec<Link> {
    let mut order: Vec<u8> = (0..size.routers as u8).collect();
    random.shuffle(&mut order);
    let in_a_row = random.once_in(4);
    let mut pairs: Vec<(u8, u8)> = Vec::new();
    for place in 1..size.routers {
        let earlier = if in_a_row {
            place - 1
        } else {
            random.below(place)
        };
        pairs.push((order[earlier], order[place]));
    }
    let tree = pairs.clone();
    let is_new =
        |&(one, other): &(u8, u8)| !tree.contains(&(one, other)) && !tree.contains(&(other, one));
    let mut others: Vec<(u8, u8)> = pairs_of(&order).into_iter().filter(is_new).collect();
    random.shuffle(&mut others);
    others.truncate(size.links.saturating_sub(pairs.len()));
    pairs.extend(others);
    random.shuffle(&mut pairs);
    let most_metric = random.pick(&[1, 2, 3, 10, 100, 65_535]);
    let least_metric = random.pick(&[1, 1, 1, most_metric]);
    pairs
        .into_iter()
        .map(|pair| {
            let (from, to) = either_way(random, pair);
            let metric = random.between(least_metric, most_metric) as u16;
            Link { from, to, metric }
        })
        .collect()
}

fn sessions(random: &mut Random, size: Size, routers: &[Router]) -> Vec<Session> {
    let clients = (0..size.routers as u8).filter(|&router| !routers[router as usize].reflector);
    let clients: Vec<u8> = clients.collect();
    let cluster = |router: u8| routers[router as usize].cluster;
    let in_one = |&(one, other): &(u8, u8)| cluster(one) == cluster(other);
    let mut pairs: Vec<(u8, u8)> = pairs_of(&clients).into_iter().filter(in_one).collect();
    random.shuffle(&mut pairs);
    pairs.truncate(size.sessions);
    pairs
        .into_iter()
        .map(|pair| {
            let (from, to) = either_way(random, pair);
            Session { from, to }
        })
        .collect()
}

/// Few different values in every field, so that each comparison often ties and often decides.
fn paths(random: &mut Random, size: Size) -> Vec<ExitPath> {
    let exit_points = values(random, 8, |random| random.below(size.routers) as u8);
    let anywhere = random.once_in(3);
    let neighbours = values(random, 4, number);
    let preferences = values(random, 2, number);
    let lengths = values(random, 2, |random| random.between(1, 255) as u8);
    let meds = values(random, 4, number);
    let most_cost = random.pick(&[0, 2, 20, 65_535]);
    let costs = values(random, 4, |random| random.between(0, most_cost) as u16);
    let speakers = values(random, 4, number);
    (0..size.paths)
        .map(|_| ExitPath {
            exit_point: if anywhere {
                random.below(size.routers) as u8
            } else {
                random.pick(&exit_points)
            },
            neighbour: random.pick(&neighbours),
            preference: random.pick(&preferences),
            length: random.pick(&lengths),
            med: random.pick(&meds),
            exit_cost: random.pick(&costs),
            speaker: random.pick(&speakers),
        })
        .collect()
}

/// One to `most` values.
fn values<T>(random: &mut Random, most: usize, draw: impl Fn(&mut Random) -> T) -> Vec<T> {
    let count = random.between(1, most);
    (0..count).map(|_| draw(random)).collect()
}

/// Any number of 32 bits, often one at the ends, a small one, or one that differs from another in
/// its high bytes only.
fn number(random: &mut Random) -> u32 {
    match random.below(5) {
        0 => random.pick(&[0, u32::MAX, i32::MAX as u32, 1 << 31]),
        1 => random.below(4) as u32,
        2 => (random.below(4) as u32) << random.pick(&[8, 16, 24]),
        3 => random.between(100, 103) as u32,
        _ => random.word() as u32,
    }
}

/// Every two of them, once.
fn pairs_of(routers: &[u8]) -> Vec<(u8, u8)> {
    let mut pairs = Vec::new();
    for (place, &one) in routers.iter().enumerate() {
        for &other in &routers[place + 1..] {
            pairs.push((one, other));
        }
    }
    pairs
}

fn either_way(random: &mut Random, (one, other): (u8, u8)) -> (u8, u8) {
    if random.once_in(2) {
        (one, other)
    } else {
        (other, one)
    }
}
