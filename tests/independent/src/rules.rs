//! What a rule keeps of a set of paths (docs/RULES.md).

use crate::sets::{below, members};
use crate::table::ExitPath;

/// A rule: the declared paths and a set, to what is kept of it.
pub type Rule = fn(&[ExitPath], u64) -> u64;

pub fn five_stage(paths: &[ExitPath], set: u64) -> u64 {
    let mut left = preferred_and_short(paths, set);
    let mut kept = 0;
    while left != 0 {
        let neighbour = paths[left.trailing_zeros() as usize].neighbour;
        let group = members(left).filter(|&path| paths[path].neighbour == neighbour);
        let group = group.fold(0, |group, path| group | 1 << path);
        kept |= least(group, |path| paths[path].med);
        left &= !group;
    }
    kept
}

pub fn compare_always(paths: &[ExitPath], set: u64) -> u64 {
    let short = preferred_and_short(paths, set);
    least(short, |path| paths[path].med)
}

/// The declared paths of the set with the highest preference, and of those the shortest.
fn preferred_and_short(paths: &[ExitPath], set: u64) -> u64 {
    let declared = set & below(paths.len());
    let preferred = least(declared, |path| !paths[path].preference);
    least(preferred, |path| paths[path].length as u32)
}

/// The members whose number is least, all that tie.
fn least(set: u64, number: impl Fn(usize) -> u32) -> u64 {
    let mut best = u32::MAX;
    let mut tied = 0;
    for member in members(set) {
        let own = number(member);
        if own < best {
            best = own;
            tied = 0;
        }
        if own == best {
            tied |= 1 << member;
        }
    }
    tied
}

#[cfg(test)]
mod tests {
    use super::*;

    /// A path of preference 100 and length 2.
    fn path(neighbour: u32, med: u32) -> ExitPath {
        ExitPath {
            exit_point: 0,
            neighbour,
            preference: 100,
            length: 2,
            med,
            exit_cost: 0,
            speaker: 0,
        }
    }

    #[test]
    fn the_example_of_the_page() {
        let paths = [path(100, 5), path(100, 0), path(200, 7)];
        assert_eq!(five_stage(&paths, 0b111), 0b110);
        assert_eq!(five_stage(&paths, 0b101), 0b101);
        assert_eq!(compare_always(&paths, 0b111), 0b010);
        assert_eq!(compare_always(&paths, 0b101), 0b001);
    }

    #[test]
    fn undeclared_paths_are_dropped_before_anything_is_compared() {
        let paths = [path(100, 5)];
        assert_eq!(five_stage(&paths, u64::MAX), 1);
        assert_eq!(compare_always(&paths, u64::MAX), 1);
        assert_eq!(five_stage(&paths, !1), 0);
    }
}
