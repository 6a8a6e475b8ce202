//! One call to compare: a table, the injected paths, and a buffer with something in it; and what
//! the program `cases` is asked of that table and set.

use crate::cases::Asked;
use crate::random::Random;
use crate::sets::below;
use crate::table::{self, MOST_PATHS};
use crate::{damage, encode, tables};

pub struct Case {
    pub table: Vec<u8>,
    pub injected: u64,
    /// The buffer is the middle of these bytes.
    pub memory: Vec<u8>,
    pub before: usize,
    pub length: usize,
    pub asked: Asked,
}

const LONGEST_BUFFER: usize = 80;

impl Case {
    /// More than half of the tables are well-formed.
    pub fn draw(random: &mut Random) -> Case {
        let table = if random.below(20) < 11 {
            encode::records(&tables::any(random)).concat()
        } else {
            damage::any(random)
        };
        let paths = match table::read(&table) {
            Ok(table) => table.paths.len(),
            Err(_) => random.between(0, MOST_PATHS),
        };
        let injected = injected(random, paths);
        let length = match random.below(3) {
            0 => random.between(0, LONGEST_BUFFER),
            _ => random.pick(&[32, 32, 33, LONGEST_BUFFER]),
        };
        let before = random.between(16, 31);
        let memory = (0..before + length + 32).map(|_| random.byte()).collect();
        let asked = random.pick(&[Asked::Records, Asked::Rules, Asked::Ways]);
        Case {
            table,
            injected,
            memory,
            before,
            length,
            asked,
        }
    }
}

/// None, all, some or one of the declared paths, and sometimes others too.
fn injected(random: &mut Random, paths: usize) -> u64 {
    let declared = below(paths);
    match random.below(16) {
        0 => 0,
        1..=3 => declared,
        4..=6 => declared & random.word() & random.word(),
        7 => declared & 1 << random.below(64),
        8 => declared | 1 << random.below(64),
        9 => declared & random.word() | 1 << 63,
        10 => random.word(),
        _ => declared & random.word(),
    }
}
