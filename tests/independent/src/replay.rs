//! What the program `replay` does (docs/PROTOCOL.md): plays a script, text in, text out.

use crate::phase::{Answer, Phase, Played, Read};
use crate::refusals::{layer, words};
use crate::script::{call, Bad};
use crate::sets::members;
use crate::table::Refusal;
use std::fmt;

/// What comes of a script.
#[derive(Debug, PartialEq, Eq)]
pub struct Replayed {
    /// On standard output.
    pub printed: String,
    /// The line that ended the run, counted from 1, if one did.
    pub bad: Option<(usize, Bad)>,
}

/// Plays the script, and shows each call that was played.
pub fn replay(script: &[u8], read: Read, mut show: impl FnMut(&Played)) -> Replayed {
    let mut network = Phase::empty();
    let mut printed = String::new();
    for (place, line) in script.split(|byte| *byte == b'\n').enumerate() {
        let played = match call(line) {
            Ok(None) => continue,
            Ok(Some(call)) => network.play(call, read),
            Err(bad) => Err(bad),
        };
        match played {
            Err(bad) => {
                let bad = Some((place + 1, bad));
                return Replayed { printed, bad };
            }
            Ok(played) => {
                printed += &format!("{played}\n");
                show(&played);
                network = played.after;
            }
        }
    }
    if network.network().is_settled() {
        printed += &network.network().lines();
    }
    Replayed { printed, bad: None }
}

impl Replayed {
    /// What standard error says.
    pub fn message(&self) -> Option<String> {
        let (line, bad) = self.bad.as_ref()?;
        Some(format!("replay: line {line}: {bad}"))
    }
}

/// The line of the call.
impl fmt::Display for Played {
    fn fmt(&self, out: &mut fmt::Formatter) -> fmt::Result {
        let answer = match &self.answer {
            Ok(answer) => answer.to_string(),
            Err(refusal) => refused(*refusal),
        };
        let altered = self.altered();
        let altered = altered.map(|(router, set)| format!("R{router} {}", braces(set)));
        let altered: Vec<String> = altered.collect();
        let altered = match altered.is_empty() {
            true => "nothing altered".into(),
            false => altered.join(", "),
        };
        let settled = match self.after.network().is_settled() {
            true => "settled",
            false => "not settled",
        };
        write!(out, "{}: {answer}; {altered}; {settled}", self.call)
    }
}

impl fmt::Display for Answer {
    fn fmt(&self, out: &mut fmt::Formatter) -> fmt::Result {
        match self {
            Answer::Done => write!(out, "done"),
            Answer::Best(None) | Answer::Metric(None) | Answer::Way(None) => write!(out, "none"),
            Answer::Best(Some(path)) => write!(out, "P{path}"),
            Answer::Metric(Some(metric)) => write!(out, "{metric}"),
            Answer::Set(set) => write!(out, "{}", braces(*set)),
            Answer::IsSettled(true) => write!(out, "yes"),
            Answer::IsSettled(false) => write!(out, "no"),
            Answer::Text(text) if text.is_empty() => write!(out, "no router"),
            Answer::Text(text) => {
                let lines: Vec<&str> = text.lines().collect();
                write!(out, "{}", lines.join(", "))
            }
            Answer::Way(Some((met, exit))) => {
                let met: Vec<String> = met.iter().map(|router| format!("R{router}")).collect();
                write!(out, "{}, leaves by P{exit}", met.join(" "))
            }
        }
    }
}

fn refused(refusal: Refusal) -> String {
    let Refusal { number, place } = refusal;
    let (layer, words) = (layer(number), words(refusal));
    format!("refused with {number} at {place} by the {layer} layer: {words}")
}

/// The members of a set, in braces.
fn braces(set: u64) -> String {
    let numbers: Vec<String> = members(set).map(|number| number.to_string()).collect();
    format!("{{{}}}", numbers.join(" "))
}

#[cfg(test)]
mod tests {
    use super::*;
    use std::io;

    fn read(file: &str) -> io::Result<Vec<u8>> {
        match file {
            "two-clusters" => Ok(include_bytes!("../../../examples/two-clusters.table").to_vec()),
            "cut-off" => Ok(include_bytes!("../../../examples/cut-off.table").to_vec()),
            "no-exits" => Ok(include_bytes!("../../../examples/no-exits.table").to_vec()),
            _ => Err(io::ErrorKind::NotFound.into()),
        }
    }

    fn played(script: &str) -> Replayed {
        replay(script.as_bytes(), &read, |_| ())
    }

    #[test]
    fn the_example_of_the_page() {
        let script = "
            load two-clusters
            inject 0
            inject 1  # leaves at router 3
            inject 2
            step 0
            best 0
            step 2 0 2
            known 2
            advertised 2
            metric 0
            settled
            settle
            best 3
            metric 1
            trace 0
            trace 0 32
            trace 0 40
            trace 0 20
            list
            injected
            settled
            reopen
            withdraw 1
            settle";
        let printed = "\
            load two-clusters: done; nothing altered; settled\n\
            inject 0: done; R1 {0}; not settled\n\
            inject 1: done; R3 {1}; not settled\n\
            inject 2: done; R1 {0 2}; not settled\n\
            step 0: done; R0 {0 2}; not settled\n\
            best 0: P0; nothing altered; not settled\n\
            step 0 2: done; R2 {1 2}; not settled\n\
            known 2: {0 1 2}; nothing altered; not settled\n\
            advertised 2: {1 2}; nothing altered; not settled\n\
            metric 0: 10; nothing altered; not settled\n\
            settled: no; nothing altered; not settled\n\
            settle: done; R0 {1 2}, R1 {1 2}, R3 {1 2}; settled\n\
            best 3: P1; nothing altered; settled\n\
            metric 1: 3; nothing altered; settled\n\
            trace 0: R0 R2 R3, leaves by P1; nothing altered; settled\n\
            trace 0: R0 R2 R3, leaves by P1; nothing altered; settled\n\
            trace 0 40: R0 R2 R3, leaves by P1; nothing altered; settled\n\
            trace 0 20: refused with 16 at 32 by the call layer: \
            the buffer is shorter than 32 bytes; nothing altered; settled\n\
            list: R0 P1 5, R1 P2 3, R2 P1 4, R3 P1 0; nothing altered; settled\n\
            injected: {0 1 2}; nothing altered; settled\n\
            settled: yes; nothing altered; settled\n\
            reopen: done; nothing altered; settled\n\
            withdraw 1: done; R3 {2}; not settled\n\
            settle: done; R0 {0 2}, R1 {0 2}, R2 {0 2}, R3 {0 2}; settled\n\
            R0 P0 10\nR1 P0 0\nR2 P0 11\nR3 P0 15\n";
        let bad = None;
        let printed = printed.into();
        assert_eq!(played(script), Replayed { printed, bad });
    }

    #[test]
    fn refused_calls() {
        let script = "step\nload cut-off\nload two-clusters\ninject 70\nstep 9 4 0\ninject 2\n\
                      inject 2\nwithdraw 0\nload no-exits\nrestart 1\nstep 1\nsettle\ntrace 0\n";
        let printed = "\
            step: refused with 13 at 0 by the call layer: no router is named; \
            nothing altered; settled\n\
            load cut-off: refused with 10 at 9 by the graph layer: \
            byte 9: no chain of links joins this router to router 0; nothing altered; settled\n\
            load two-clusters: done; nothing altered; settled\n\
            inject 70: refused with 11 at 70 by the call layer: path 70 is not declared; \
            nothing altered; settled\n\
            step 0 4 9: refused with 12 at 4 by the call layer: router 4 is not declared; \
            nothing altered; settled\n\
            inject 2: done; R1 {2}; not settled\n\
            inject 2: refused with 14 at 2 by the call layer: path 2 is injected already; \
            nothing altered; not settled\n\
            withdraw 0: refused with 15 at 0 by the call layer: path 0 is not injected; \
            nothing altered; not settled\n\
            load no-exits: done; R1 {}; settled\n\
            restart 1: done; nothing altered; settled\n\
            step 1: done; nothing altered; settled\n\
            settle: done; nothing altered; settled\n\
            trace 0: none; nothing altered; settled\n\
            R0 - -\nR1 - -\n";
        let bad = None;
        let printed = printed.into();
        assert_eq!(played(script), Replayed { printed, bad });
    }

    #[test]
    fn refused_questions() {
        let script = "settled\ninjected\nmetric 0\nsettle\nlist\nlist 511\ntrace 0 31\nknown 0\n\
            advertised 7\nreopen\nload two-clusters\nmetric 3\nadvertised 3\nknown 4\nsettle\n\
            trace 4 31\ntrace 3 31\ntrace 3 65536\nlist 513\n";
        let printed = "\
            settled: yes; nothing altered; settled\n\
            injected: {}; nothing altered; settled\n\
            metric 0: refused with 12 at 0 by the call layer: router 0 is not declared; \
            nothing altered; settled\n\
            settle: done; nothing altered; settled\n\
            list: no router; nothing altered; settled\n\
            list 511: refused with 16 at 512 by the call layer: \
            the buffer is shorter than 512 bytes; nothing altered; settled\n\
            trace 0 31: refused with 12 at 0 by the call layer: router 0 is not declared; \
            nothing altered; settled\n\
            known 0: refused with 12 at 0 by the call layer: router 0 is not declared; \
            nothing altered; settled\n\
            advertised 7: refused with 12 at 7 by the call layer: router 7 is not declared; \
            nothing altered; settled\n\
            reopen: done; nothing altered; settled\n\
            load two-clusters: done; nothing altered; settled\n\
            metric 3: none; nothing altered; settled\n\
            advertised 3: {}; nothing altered; settled\n\
            known 4: refused with 12 at 4 by the call layer: router 4 is not declared; \
            nothing altered; settled\n\
            settle: done; nothing altered; settled\n\
            trace 4 31: refused with 12 at 4 by the call layer: router 4 is not declared; \
            nothing altered; settled\n\
            trace 3 31: refused with 16 at 32 by the call layer: \
            the buffer is shorter than 32 bytes; nothing altered; settled\n\
            trace 3 65536: none; nothing altered; settled\n\
            list 513: R0 - -, R1 - -, R2 - -, R3 - -; nothing altered; settled\n\
            R0 - -\nR1 - -\nR2 - -\nR3 - -\n";
        let bad = None;
        let printed = printed.into();
        assert_eq!(played(script), Replayed { printed, bad });
    }

    #[test]
    fn bad_lines() {
        let message = |script: &str| played(script).message();
        assert_eq!(message("settle\n# stop\n"), None);
        let stopped = played("settle\n\n# stop\nstop\nreopen\n");
        assert_eq!(
            stopped.message().unwrap(),
            "replay: line 4: `stop` is no call"
        );
        assert_eq!(stopped.printed, "settle: done; nothing altered; settled\n");
        assert_eq!(
            message("settled\ntrace 0 032").unwrap(),
            "replay: line 2: `trace 0` is out of place: \
            the network is running, and wants `settle` first"
        );
        assert_eq!(
            message("settle\n\nstep 1 0").unwrap(),
            "replay: line 3: `step 0 1` is out of place: \
            the network is settled, and wants `reopen` first"
        );
        let starts = |script: &str, line| message(script).unwrap().starts_with(line);
        assert!(starts("trace 0", "replay: line 1: "));
        assert!(starts("settled\nlist 511", "replay: line 2: "));
        assert_eq!(
            message("settle\ntrace 0 70000").unwrap(),
            "replay: line 2: a buffer of 70000 bytes is more than the 65536 of a script"
        );
        assert!(starts("settle\nreopen\nreopen", "replay: line 3: "));
        for call in ["load no-exits", "inject 9", "withdraw 0", "restart 0"] {
            assert!(starts(&format!("settle\n{call}"), "replay: line 2: "));
        }
        for call in ["step 0", "step", "settle"] {
            assert!(starts(&format!("settle\n{call}"), "replay: line 2: "));
        }
        assert!(starts("\n\nload none", "replay: line 3: "));
    }

    #[test]
    fn without_a_call() {
        assert_eq!(played("").printed, "");
        assert_eq!(played("# nothing\n").bad, None);
    }
}
