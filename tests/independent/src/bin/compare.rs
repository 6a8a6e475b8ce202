//! `compare [TABLES [SEED]]`: random tables, answered by the library, by the programs `settle` and
//! `cases`, and by this package. Any difference ends it with status 1.

#[path = "../linked.rs"]
mod linked;

use independent::case::Case;
use independent::cases::{difference, hexadecimal, Line};
use independent::counts::Counts;
use independent::direct::{direct, direct_with, NO_PATH};
use independent::lines::lines;
use independent::many::{arguments, play_all, stop};
use independent::program::run;
use independent::random::Random;
use independent::rules::five_stage;
use independent::table::{self, Table};
use independent::{encode, laws, nearest, tables, ways};
use std::env;

fn main() {
    let (tables, seed) = arguments("compare [TABLES [SEED]]", 20_000);
    let program =
        |name| env::var(name).unwrap_or_else(|_| stop(&format!("{name} names no program")));
    let programs = Programs {
        settle: program("REFLECTORS_SETTLE"),
        cases: program("REFLECTORS_CASES"),
    };
    let counts = compare(tables, seed, &programs).unwrap_or_else(|difference| stop(&difference));
    counts.print();
    if let Some(missing) = counts.missing() {
        stop(missing);
    }
}

struct Programs {
    settle: String,
    cases: String,
}

fn compare(tables: u64, seed: u64, programs: &Programs) -> Result<Counts, String> {
    let mut counts = Counts::default();
    for others in play_all(tables, |numbers| play(numbers, seed, programs))? {
        counts.add(&others);
    }
    Ok(counts)
}

/// Plays the tables of these numbers, and at last their lines for `cases`, in one run of it.
fn play(
    numbers: impl Iterator<Item = u64>,
    seed: u64,
    programs: &Programs,
) -> Result<Counts, String> {
    let mut counts = Counts::default();
    let mut lines = Vec::new();
    for number in numbers {
        let mut random = Random::numbered(seed, number);
        let case = Case::draw(&mut random);
        play_one(&case, &programs.settle, &mut random, &mut counts).map_err(|what| {
            let call = describe(&case);
            format!("table {number} of seed {seed}: {what}\n{call}")
        })?;
        lines.push(Line {
            name: format!("table {number}"),
            table: case.table,
            asked: case.asked,
            set: case.injected,
        });
    }
    play_lines(&lines, &programs.cases).map_err(|what| format!("seed {seed}: {what}"))?;
    Ok(counts)
}

fn play_one(
    case: &Case,
    settle: &str,
    random: &mut Random,
    counts: &mut Counts,
) -> Result<(), String> {
    let answer = calls(case)?;
    play_settle(case, settle)?;
    let table = table::read(&case.table).ok();
    alone(case, table.as_ref(), answer, random)?;
    counts.count(answer, table.as_ref(), case.asked);
    Ok(())
}

fn describe(case: &Case) -> String {
    format!(
        "table:{}\ninjected: {:#x}\nbuffer: {} bytes",
        hexadecimal(&case.table),
        case.injected,
        case.length,
    )
}

/// The library's answer and every byte of the buffer and around it, against one's own.
fn calls(case: &Case) -> Result<u64, String> {
    let buffer = case.before..case.before + case.length;
    let mut theirs = case.memory.clone();
    let answer = linked::direct(&case.table, case.injected, &mut theirs[buffer.clone()]);
    let mut own = case.memory.clone();
    let own_answer = direct(&case.table, case.injected, &mut own[buffer.clone()]);
    if answer != own_answer || theirs != own {
        let what = format!(
            "the library answers {answer} (number {}, place {}) with {:?},\n\
             this package {own_answer} (number {}, place {}) with {:?}",
            answer & 255,
            answer >> 8,
            &theirs[buffer.clone()],
            own_answer & 255,
            own_answer >> 8,
            &own[buffer.clone()],
        );
        let around = if theirs[..case.before] != own[..case.before]
            || theirs[buffer.end..] != own[buffer.end..]
        {
            "\nand bytes outside of the buffer differ"
        } else {
            ""
        };
        return Err(what + around);
    }
    if answer == 0 {
        let routers = table::read(&case.table).expect("accepted").routers.len();
        let bytes = &theirs[buffer][..routers];
        if bytes
            .iter()
            .any(|&byte| (byte == NO_PATH) != (case.injected == 0))
        {
            return Err("not 255 exactly if nothing is injected".into());
        }
    }
    Ok(answer)
}

/// What `settle` prints for the table, against one's own lines.
fn play_settle(case: &Case, settle: &str) -> Result<(), String> {
    let (printed, succeeded) = run(settle, &case.table)?;
    let own = lines(&case.table);
    if printed != own || !succeeded {
        let how = if succeeded { "" } else { " and fails" };
        return Err(format!("settle prints{how}:\n{printed}\nand not:\n{own}"));
    }
    Ok(())
}

/// What `cases` prints for all lines, against one's own answers.
fn play_lines(lines: &[Line], cases: &str) -> Result<(), String> {
    let input: String = lines.iter().map(Line::text).collect();
    let (printed, succeeded) = run(cases, input.as_bytes())?;
    match difference(lines, &printed) {
        None if !succeeded => Err("cases fails".into()),
        difference => difference.map_or(Ok(()), Err),
    }
}

/// What the pages promise, asked of this package alone.
fn alone(
    case: &Case,
    table: Option<&Table>,
    answer: u64,
    random: &mut Random,
) -> Result<(), String> {
    let table = match table {
        Some(table) => table,
        None => {
            // The rules are asked about the paths of another table.
            let table = tables::any(random);
            return laws::broken(&table.paths, random).map_or(Ok(()), Err);
        }
    };
    if encode::records(table).concat() != case.table {
        return Err("the table has another encoding".into());
    }
    if let Some(law) = laws::broken(&table.paths, random) {
        return Err(law);
    }
    let kept = five_stage(&table.paths, case.injected);
    if kept != 0 {
        if let Some(way) = ways::broken(table, kept) {
            return Err(way);
        }
    }
    if answer == 0 {
        let [mut by_distances, mut by_spreading] = [[NO_PATH; 32]; 2];
        direct(&case.table, case.injected, &mut by_distances);
        direct_with(
            &case.table,
            case.injected,
            &mut by_spreading,
            nearest::choose,
        );
        if by_distances != by_spreading {
            return Err("best paths differ by distances and by spreading".into());
        }
    }
    Ok(())
}
