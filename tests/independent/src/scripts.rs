//! Random scripts for `replay`, and the tables that they load.

use crate::random::Random;
use crate::spelling;
use crate::table;
use crate::tables::{self, Size, FULL};
use crate::writer::Writer;
use crate::{damage, encode};
use std::io;

pub struct Script {
    pub text: String,
    pub tables: Tables,
}

/// Tables by the names of their files.
#[derive(Default)]
pub struct Tables {
    pub sound: Vec<(String, Vec<u8>)>,
    pub refused: Vec<(String, Vec<u8>)>,
}

const MOST_CALLS: usize = 200;

impl Script {
    /// A script of 200 calls most often, and of fewer otherwise. Some end with a bad line, and
    /// others behind that.
    pub fn draw(random: &mut Random) -> Script {
        let tables = Tables::draw(random);
        let calls = match random.below(4) {
            0 => random.between(0, MOST_CALLS),
            _ => MOST_CALLS,
        };
        let mut writer = Writer::new(random, &tables, calls);
        writer.write();
        let (mut text, network) = writer.written();
        if random.once_in(4) {
            text += &spelling::bad_line(random, &network);
            text += "settle\nbest 0\nstop\n";
        } else if random.once_in(4) {
            // The last line need not end.
            text.pop();
        }
        Script { text, tables }
    }
}

impl Tables {
    fn draw(random: &mut Random) -> Tables {
        let mut tables = Tables::default();
        for number in 0..3 {
            let name = format!("sound-{number}.table");
            tables.sound.push((name, sound(random)));
        }
        for number in 0..4 {
            let name = format!("refused-{number}.table");
            tables.refused.push((name, refused(random)));
        }
        tables
    }

    pub fn all(&self) -> impl Iterator<Item = &(String, Vec<u8>)> {
        self.sound.iter().chain(&self.refused)
    }

    /// Reads a table in place of its file.
    pub fn read(&self, file: &str) -> io::Result<Vec<u8>> {
        let found = self.all().find(|(name, _)| name == file);
        let table = found.map(|(_, table)| table.clone());
        table.ok_or_else(|| io::ErrorKind::NotFound.into())
    }
}

/// Half of the tables are small, so that many rounds fit in a script. Half of the others have
/// 32 routers in a row.
fn sound(random: &mut Random) -> Vec<u8> {
    let table = match random.below(8) {
        0 | 1 => tables::line(random),
        2 => {
            let size = Size {
                links: random.between(0, 40),
                paths: random.between(1, FULL.paths),
                ..FULL
            };
            tables::of_size(random, size)
        }
        3 => tables::any(random),
        _ => {
            let size = Size {
                routers: random.between(1, 8),
                links: random.between(0, 12),
                sessions: random.between(0, 6),
                paths: random.between(1, 8),
            };
            tables::of_size(random, size)
        }
    };
    encode::records(&table).concat()
}

fn refused(random: &mut Random) -> Vec<u8> {
    loop {
        let bytes = damage::any(random);
        if table::read(&bytes).is_err() {
            return bytes;
        }
    }
}

#[cfg(test)]
mod tests {
    use super::*;
    use crate::promised::Watch;
    use crate::replay::replay;

    #[test]
    fn every_promise_holds_and_has_something_to_say() {
        let (mut calls, mut refused) = (0, 0);
        let (mut rests, mut quiet_rounds, mut packets) = (0, 0, 0);
        for number in 0..60 {
            let script = Script::draw(&mut Random::numbered(1, number));
            let mut watch = Watch::default();
            let read = |file: &str| script.tables.read(file);
            replay(script.text.as_bytes(), &read, |played| {
                watch.call(played).unwrap();
                calls += 1;
                refused += usize::from(played.answer.is_err());
            });
            rests += watch.seen.rests;
            quiet_rounds += watch.seen.quiet_rounds;
            packets += watch.seen.packets;
        }
        assert!(calls / 4 < refused && refused < calls / 2);
        assert!(rests > 0 && quiet_rounds > 0 && packets > 0);
    }
}
