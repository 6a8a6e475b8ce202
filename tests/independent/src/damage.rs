//! Tables near to well-formed ones: one thing is wrong with them, sometimes two, sometimes none.

// All damages have one type, whether they change the number of records or not.
#![allow(clippy::ptr_arg)]

use crate::encode::{self, Record};
use crate::random::Random;
use crate::table::{record_length, LINK, PATH, ROUTER, SESSION};
use crate::tables::{self, Size, FULL};

type Damage = fn(&mut Random, &mut Vec<Record>);

const DAMAGES: [Damage; 19] = [
    cut_short,
    change_a_byte,
    change_a_byte,
    unknown_kind,
    insert_a_byte,
    lose_a_byte,
    swap,
    repeat,
    repeat_turned,
    lose_a_record,
    one_too_many,
    field_out_of_range,
    cut_off,
    cut_off,
    join_to_itself,
    session_across,
    lose_reflectors,
    lose_reflectors,
    go_on,
];

pub fn any(random: &mut Random) -> Vec<u8> {
    match random.below(20) {
        0 => Vec::new(),
        1 => noise(random),
        _ => {
            let mut records = encode::records(&tables::any(random));
            for _ in 0..random.pick(&[1, 1, 1, 2]) {
                let damage = random.pick(&DAMAGES);
                damage(random, &mut records);
            }
            records.concat()
        }
    }
}

/// A few bytes, most of which are kinds and small numbers.
fn noise(random: &mut Random) -> Vec<u8> {
    let length = random.between(0, 40);
    let most = random.pick(&[1, 2, 4, 255]);
    (0..length).map(|_| random.between(0, most) as u8).collect()
}

fn cut_short(random: &mut Random, records: &mut Vec<Record>) {
    let place = random.below(records.len().max(1));
    records.truncate(place + 1);
    if let Some(last) = records.last_mut() {
        last.truncate(random.below(last.len().max(1)));
    }
}

fn change_a_byte(random: &mut Random, records: &mut Vec<Record>) {
    if let Some(byte) = a_byte(random, records) {
        *byte = match random.below(3) {
            0 => *byte ^ 1 << random.below(8),
            1 => byte.wrapping_add(random.pick(&[1, 255])),
            _ => random.byte(),
        };
    }
}

fn unknown_kind(random: &mut Random, records: &mut Vec<Record>) {
    let kind = random.pick(&[0, 5, 6, 128, 255]);
    if let Some(record) = a_record(random, records) {
        record[0] = kind;
    }
}

fn insert_a_byte(random: &mut Random, records: &mut Vec<Record>) {
    let byte = random.pick(&[0, 1, 2, 3, 4, 255]);
    let place = random.between(0, records.len());
    records.insert(place, vec![byte]);
}

fn lose_a_byte(random: &mut Random, records: &mut Vec<Record>) {
    if let Some(record) = a_record(random, records) {
        record.remove(random.below(record.len()));
    }
}

fn swap(random: &mut Random, records: &mut Vec<Record>) {
    if !records.is_empty() {
        let one = random.below(records.len());
        let other = match random.below(2) {
            0 => random.below(records.len()),
            _ => (one + 1) % records.len(),
        };
        records.swap(one, other);
    }
}

fn repeat(random: &mut Random, records: &mut Vec<Record>) {
    if let Some(record) = a_record(random, records) {
        let again = record.clone();
        insert_behind_its_kind(random, records, again);
    }
}

/// Repeats a link or a session with its routers in the other order.
fn repeat_turned(random: &mut Random, records: &mut Vec<Record>) {
    if let Some(record) = of_kind(random, records, &[LINK, SESSION]) {
        let mut again = record.clone();
        again.swap(1, 2);
        insert_behind_its_kind(random, records, again);
    }
}

fn lose_a_record(random: &mut Random, records: &mut Vec<Record>) {
    if !records.is_empty() {
        records.remove(random.below(records.len()));
    }
}

/// Starts anew with all that a table can hold of one kind, and adds one record. It may have a
/// fault of a higher number too.
fn one_too_many(random: &mut Random, records: &mut Vec<Record>) {
    *records = encode::records(&tables::of_size(random, FULL));
    let kind = random.pick(&[ROUTER, LINK, SESSION, PATH]);
    if let Some(record) = of_kind(random, records, &[kind]) {
        let mut more = record.clone();
        if random.once_in(2) {
            let place = random.between(1, more.len() - 1);
            more[place] = random.byte();
        }
        insert_behind_its_kind(random, records, more);
    }
}

/// Puts one field just or far outside of its range.
fn field_out_of_range(random: &mut Random, records: &mut Vec<Record>) {
    let routers = count(records, ROUTER) as u8;
    let undeclared = random.pick(&[routers, routers + 1, 32, 255]).max(routers);
    let beyond_cluster = random.pick(&[32, 33, 255]);
    let beyond_role = random.pick(&[2, 3, 255]);
    let which = random.below(2);
    let end = 1 + random.below(2);
    if let Some(record) = a_record(random, records) {
        match (record[0], which) {
            (ROUTER, 0) => record[1] = beyond_cluster,
            (ROUTER, _) => record[2] = beyond_role,
            (LINK, 0) => record[3..5].fill(0),
            (PATH, 0) => record[10] = 0,
            (LINK | SESSION, _) => record[end] = undeclared,
            _ => record[1] = undeclared,
        }
    }
}

/// Starts anew with few links, and takes away all links between some routers and the others.
fn cut_off(random: &mut Random, records: &mut Vec<Record>) {
    let size = Size {
        routers: random.between(2, FULL.routers),
        links: random.between(0, FULL.links),
        sessions: random.between(0, FULL.sessions),
        paths: random.between(0, 4),
    };
    *records = encode::records(&tables::of_size(random, size));
    let side = match random.below(2) {
        0 => 1 << random.below(size.routers),
        _ => random.word(),
    };
    let on_side = |router: u8| side >> router & 1;
    records.retain(|record| record[0] != LINK || on_side(record[1]) == on_side(record[2]));
}

/// Joins a router to itself, by a link or by a session.
fn join_to_itself(random: &mut Random, records: &mut Vec<Record>) {
    if let Some(record) = of_kind(random, records, &[LINK, SESSION]) {
        record[1] = record[2];
    }
}

/// Puts a session between any two routers.
fn session_across(random: &mut Random, records: &mut Vec<Record>) {
    let routers = count(records, ROUTER).max(1);
    let record = vec![
        SESSION,
        random.below(routers) as u8,
        random.below(routers) as u8,
    ];
    insert_behind_its_kind(random, records, record);
}

/// Turns all reflectors of a cluster into clients.
fn lose_reflectors(random: &mut Random, records: &mut Vec<Record>) {
    if let Some(router) = of_kind(random, records, &[ROUTER]) {
        let cluster = router[1];
        for record in records.iter_mut() {
            if is_whole(record, ROUTER) && record[1] == cluster {
                record[2] = 0;
            }
        }
    }
}

/// Goes on behind the table, far past the longest one at times.
fn go_on(random: &mut Random, records: &mut Vec<Record>) {
    let times = random.pick(&[1, 10, 1000]);
    let more = match records.last() {
        Some(last) if random.once_in(2) => last.clone(),
        _ => noise(random),
    };
    records.extend(vec![more; times]);
}

/// Inserts a record behind one of its kind, most often the last, or at the end.
fn insert_behind_its_kind(random: &mut Random, records: &mut Vec<Record>, record: Record) {
    let of_kind = |other: &Record| other.first() == record.first();
    let first = records.iter().position(of_kind);
    let last = records.iter().rposition(of_kind);
    let place = match (first, last) {
        (Some(first), Some(last)) if random.once_in(4) => random.between(first, last) + 1,
        (_, Some(last)) => last + 1,
        // There is none: behind all of lower kinds.
        _ => records.iter().take_while(|other| **other < record).count(),
    };
    records.insert(place, record);
}

fn count(records: &[Record], kind: u8) -> usize {
    let of_kind = records.iter().filter(|record| is_whole(record, kind));
    of_kind.count()
}

fn a_byte<'a>(random: &mut Random, records: &'a mut [Record]) -> Option<&'a mut u8> {
    let record = a_record(random, records)?;
    let place = random.below(record.len());
    Some(&mut record[place])
}

fn a_record<'a>(random: &mut Random, records: &'a mut [Record]) -> Option<&'a mut Record> {
    of_kind(random, records, &[ROUTER, LINK, SESSION, PATH])
}

/// A record of one of the kinds, each kind that there is as often as the others. It has all its
/// bytes.
fn of_kind<'a>(
    random: &mut Random,
    records: &'a mut [Record],
    kinds: &[u8],
) -> Option<&'a mut Record> {
    let there = |kind: &u8| records.iter().any(|record| is_whole(record, *kind));
    let kinds: Vec<u8> = kinds.iter().copied().filter(there).collect();
    if kinds.is_empty() {
        return None;
    }
    let kind = random.pick(&kinds);
    let of_kind = records.iter_mut().filter(|record| is_whole(record, kind));
    let mut of_kind: Vec<&mut Record> = of_kind.collect();
    let place = random.below(of_kind.len());
    Some(of_kind.swap_remove(place))
}

fn is_whole(record: &Record, kind: u8) -> bool {
    record.first() == Some(&kind) && record_length(kind) == Some(record.len())
}
