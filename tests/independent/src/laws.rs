//! What docs/RULES.md says of the rules in plain terms and as laws, asked of random sets.

use crate::random::Random;
use crate::rules::{compare_always, five_stage, Rule};
use crate::sets::{below, holds, members};
use crate::table::ExitPath;

/// The first thing that is not so, if any.
pub fn broken(paths: &[ExitPath], random: &mut Random) -> Option<String> {
    let rules: [(&str, Rule, bool); 2] = [
        ("five-stage", five_stage, true),
        ("compare-always", compare_always, false),
    ];
    for (name, rule, per_neighbour) in rules {
        let handed = random.word();
        let set = handed & below(paths.len());
        let kept = rule(paths, set);
        let checks = [
            ("plain", kept == plain(paths, set, per_neighbour)),
            ("declared", kept == rule(paths, handed)),
            ("within", kept & !set == 0),
            ("nonempty", (kept == 0) == (set == 0)),
            ("heritage", heritage(paths, rule, set, random)),
            ("outcast", outcast(paths, rule, set, random)),
            ("again", kept == rule(paths, kept)),
        ];
        if let Some((law, _)) = checks.into_iter().find(|(_, holds)| !holds) {
            return Some(format!("{name} breaks '{law}' at {set:#x}"));
        }
    }
    None
}

/// The members that no member beats.
fn plain(paths: &[ExitPath], set: u64, per_neighbour: bool) -> u64 {
    let unbeaten = |path: &usize| {
        let path = &paths[*path];
        members(set).all(|other| !beats(&paths[other], path, per_neighbour))
    };
    let unbeaten = members(set).filter(unbeaten);
    unbeaten.fold(0, |kept, path| kept | 1 << path)
}

fn beats(other: &ExitPath, path: &ExitPath, per_neighbour: bool) -> bool {
    let as_preferred = other.preference == path.preference;
    let as_long = other.length == path.length;
    let compared = !per_neighbour || other.neighbour == path.neighbour;
    other.preference > path.preference
        || as_preferred && other.length < path.length
        || as_preferred && as_long && compared && other.med < path.med
}

/// A path of a smaller set that is kept of the larger is kept of the smaller.
fn heritage(paths: &[ExitPath], rule: Rule, set: u64, random: &mut Random) -> bool {
    let kept = rule(paths, set);
    let smaller = set & random.word();
    let kept_of_smaller = rule(paths, smaller);
    members(smaller & kept).all(|path| holds(kept_of_smaller, path))
}

/// Of a smaller set that holds all that is kept, the same is kept.
fn outcast(paths: &[ExitPath], rule: Rule, set: u64, random: &mut Random) -> bool {
    let kept = rule(paths, set);
    let smaller = kept | set & random.word();
    rule(paths, smaller) == kept
}
