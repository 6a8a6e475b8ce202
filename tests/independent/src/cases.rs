//! Lines for the program `cases`, and what it prints for each. What is kept of a set, which paths
//! routers take, which way a packet goes and what is refused is as the pages say, and how a line
//! looks as in crates/cases/stdout. Lines with calls on a network stand last there, and are none of these.

use crate::direct::{LEAST_BUFFER, SHORT_BUFFER, UNDECLARED_PATH};
use crate::distances::Distances;
use crate::forwarding::{best, metric, way, Way};
use crate::rules::{compare_always, five_stage};
use crate::sets::{below, members};
use crate::table::{self, ExitPath, Table};

const UNDECLARED_ROUTER: u64 = 12;

/// What a line asks of its table.
#[derive(Clone, Copy)]
pub enum Asked {
    /// How many records of each kind it has, and the last of each.
    Records,
    /// What each rule keeps of a set.
    Rules,
    /// The best path of each router of a set, and the way of a packet.
    Ways,
}

pub struct Line {
    pub name: String,
    pub table: Vec<u8>,
    pub asked: Asked,
    pub set: u64,
}

impl Line {
    pub fn text(&self) -> String {
        let (name, table, set) = (&self.name, hexadecimal(&self.table), self.set);
        match self.asked {
            Asked::Records => format!("{name}:{table}\n"),
            Asked::Rules => format!("{name}:{table}; {set:016X}\n"),
            Asked::Ways => format!("{name}:{table} > {set:016X}\n"),
        }
    }

    fn answer(&self) -> String {
        let found = match table::read(&self.table) {
            Err(refusal) => format!(" {} at {}", refusal.number, refusal.place),
            Ok(table) => match self.asked {
                Asked::Records => format!(" {}", records(&table).join("\n  ")),
                Asked::Rules => format!("\n  {}", kept(&table.paths, self.set).join("\n  ")),
                Asked::Ways => format!("\n  {}", ways(&table, self.set).join("\n  ")),
            },
        };
        format!("{}:{found}\n", self.name)
    }
}

/// Where what the program prints for all these lines is not what it should, if anywhere.
pub fn difference(lines: &[Line], printed: &str) -> Option<String> {
    let (first, mut rest) = cut(printed);
    if !first.ends_with(" worked cases are proved\n") {
        return Some(format!("cases begins with:\n{first}"));
    }
    for line in lines {
        let (answer, behind) = cut(rest);
        let own = line.answer();
        if answer != own {
            let line = line.text();
            return Some(format!(
                "cases prints:\n{answer}\nand not:\n{own}\nfor the line:\n{line}"
            ));
        }
        rest = behind;
    }
    (!rest.is_empty()).then(|| format!("cases goes on with:\n{rest}"))
}

/// The first answer, and what is behind it. All lines of an answer but its first begin with spaces.
fn cut(printed: &str) -> (&str, &str) {
    let mut ends = printed.match_indices('\n').map(|(place, _)| place + 1);
    let end = ends.find(|&end| !printed[end..].starts_with(' '));
    printed.split_at(end.unwrap_or(printed.len()))
}

/// A space and two digits for each byte.
pub fn hexadecimal(bytes: &[u8]) -> String {
    bytes.iter().map(|byte| format!(" {byte:02X}")).collect()
}

fn records(table: &Table) -> Vec<String> {
    let mut lines = vec![format!(
        "{} routers, {} links, {} sessions, {} paths",
        table.routers.len(),
        table.links.len(),
        table.sessions.len(),
        table.paths.len(),
    )];
    if let Some(router) = table.routers.last() {
        let role = ["client", "reflector"][router.reflector as usize];
        lines.push(format!("last router cluster {} {role}", router.cluster));
    }
    if let Some(link) = table.links.last() {
        let (from, to, metric) = (link.from, link.to, link.metric);
        lines.push(format!("last link {from} {to} metric {metric}"));
    }
    if let Some(session) = table.sessions.last() {
        lines.push(format!("last session {} {}", session.from, session.to));
    }
    if let Some(path) = table.paths.last() {
        lines.push(format!(
            "last path exit point {} AS {} preference {} length {} MED {} cost {} speaker {}",
            path.exit_point,
            path.neighbour,
            path.preference,
            path.length,
            path.med,
            path.exit_cost,
            path.speaker,
        ));
    }
    lines
}

fn kept(paths: &[ExitPath], set: u64) -> Vec<String> {
    let line = |rule: &str, kept: u64| format!("{rule}{}", numbers(members(kept)));
    vec![
        line("all", set & below(paths.len())),
        line("five-stage", five_stage(paths, set)),
        line("compare-always", compare_always(paths, set)),
    ]
}

/// A space before each.
fn numbers(numbers: impl Iterator<Item = usize>) -> String {
    numbers.map(|number| format!(" {number}")).collect()
}

fn ways(table: &Table, set: u64) -> Vec<String> {
    let distances = Distances::of(table);
    let stray = lowest_undeclared(table, set);
    let of_router = |router| match (stray, best(table, &distances, router, set)) {
        (Some(path), _) => {
            let refusal = refusal((UNDECLARED_PATH, path));
            format!("R{router} best {refusal}, trace {refusal}")
        }
        (None, None) => format!("R{router} - - goes nowhere"),
        (None, Some(path)) => {
            let metric = metric(table, &distances, router, path);
            let way = way(table, &distances, router, set);
            let Way { met, exit } = way.expect("every packet leaves");
            let met = numbers(met.into_iter());
            format!("R{router} P{path} {metric} meets{met} leaves P{exit}")
        }
    };
    let routers = (0..table.routers.len()).map(of_router);
    routers.chain(refusals(table, stray)).collect()
}

/// The lowest path of a set that is not declared, for which a best path and a way are refused.
fn lowest_undeclared(table: &Table, set: u64) -> Option<usize> {
    members(set & !below(table.paths.len())).next()
}

/// What the calls are refused with that the program makes behind the ways, of the path and the
/// router behind the last and with a buffer of 31 bytes. The smallest number is given, and that is
/// of a path of the set that is not declared, where there is one.
fn refusals(table: &Table, stray: Option<usize>) -> impl Iterator<Item = String> {
    let path = (UNDECLARED_PATH, table.paths.len());
    let router = (UNDECLARED_ROUTER, table.routers.len());
    // Path 0 is behind the last one where there is none.
    let first_path = if table.paths.is_empty() { path } else { router };
    let of_set = |other| stray.map_or(other, |path| (UNDECLARED_PATH, path));
    let refused = [
        ("best", of_set(router)),
        ("metric of a path and at a router", path),
        ("metric at a router", first_path),
        ("next hop", router),
        ("trace from a router into 31 bytes", of_set(router)),
        ("trace into 31 bytes", of_set((SHORT_BUFFER, LEAST_BUFFER))),
    ];
    refused
        .into_iter()
        .map(|(call, refused)| format!("{call} {}", refusal(refused)))
}

fn refusal((number, place): (u64, usize)) -> String {
    format!("{number} at {place}")
}

#[cfg(test)]
mod tests {
    use super::*;

    const LINES: &str = include_str!("../../../crates/cases/stdin");
    const PRINTED: &str = include_str!("../../../crates/cases/stdout");

    /// The lines without calls on a network, and what is printed for them.
    fn without_calls() -> (&'static str, &'static str) {
        let is_behind = |place: &usize| LINES[*place..].lines().all(|line| line.contains('!'));
        let mut starts = LINES.match_indices('\n').map(|(place, _)| place + 1);
        let start = starts.find(is_behind).unwrap();
        let (lines, behind) = LINES.split_at(start);
        let (name, _) = behind.split_once(':').unwrap();
        let answers = PRINTED.find(&format!("\n{name}:\n")).unwrap() + 1;
        (lines, &PRINTED[..answers])
    }

    fn line(text: &str) -> Line {
        let (name, rest) = text.split_once(':').unwrap();
        let (table, asked, set) = if let Some((table, set)) = rest.split_once("; ") {
            (table, Asked::Rules, set)
        } else if let Some((table, set)) = rest.split_once(" > ") {
            (table, Asked::Ways, set)
        } else {
            (rest, Asked::Records, "0")
        };
        let digits = table.split_whitespace();
        Line {
            name: name.into(),
            table: digits
                .map(|byte| u8::from_str_radix(byte, 16).unwrap())
                .collect(),
            asked,
            set: u64::from_str_radix(set, 16).unwrap(),
        }
    }

    #[test]
    fn the_lines_of_the_program() {
        let (texts, printed) = without_calls();
        let lines: Vec<Line> = texts.lines().map(line).collect();
        assert_eq!(lines.iter().map(Line::text).collect::<String>(), texts);
        assert_eq!(difference(&lines, printed), None);
    }

    #[test]
    fn every_line_printed_is_compared() {
        let (texts, answers) = without_calls();
        let lines: Vec<Line> = texts.lines().map(line).collect();
        for (end, _) in answers.match_indices('\n').step_by(19) {
            let printed = format!("{}!{}", &answers[..end], &answers[end..]);
            assert!(difference(&lines, &printed).is_some());
        }
        assert!(difference(&lines, &format!("{answers}more\n")).is_some());
        assert!(difference(&lines[1..], answers).is_some());
    }
}
