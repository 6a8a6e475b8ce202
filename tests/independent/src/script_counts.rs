//! What the calls of random scripts came to.

use crate::counts::add;
use crate::network::{LIST_BUFFER, TRACE_BUFFER};
use crate::phase::{Answer, Phase, Played};
use crate::promised::Seen;
use crate::refusals::{NAMES as REFUSALS, SHORT_BUFFER, UNDECLARED_ROUTER};
use crate::replay::Replayed;
use crate::script::{Bad, Call, NAMES};
use crate::table::MOST_ROUTERS;

/// So many scripts must reach every refusal and every call.
const ENOUGH: u64 = 200;

/// What calls must come to besides.
const CAME: [&str; 16] = [
    "altered an advertised set",
    "traced a packet that left",
    "traced one that met 32 routers",
    "traced one that left by another path than its first router takes",
    "traced none",
    "traced into a buffer of 32 bytes",
    "traced into a longer one",
    "refused a trace with 16",
    "refused a trace with 12 into a buffer that is too short",
    "listed into a buffer of 512 bytes",
    "listed into a longer one",
    "listed no router",
    "refused a list with 16",
    "answered no path, or no metric",
    "answered that a network is not settled",
    "ended by a buffer past the longest",
];

#[derive(Clone, Default)]
pub struct ScriptCounts {
    scripts: u64,
    calls: u64,
    by_number: [u64; REFUSALS.len()],
    /// The accepted calls of each name, of running networks and of settled ones.
    by_call: [[u64; 2]; NAMES.len()],
    /// How often each of `CAME` did.
    came: [u64; CAME.len()],
    /// Calls that left the network settled, and whether the last one did.
    settled: u64,
    ends_settled: bool,
    /// Scripts that a bad line ended, and those that ended with a list.
    ends: [u64; 2],
    seen: [u64; 3],
}

impl ScriptCounts {
    pub fn call(&mut self, played: &Played) {
        self.calls += 1;
        match &played.answer {
            Err(refusal) => self.by_number[refusal.number as usize] += 1,
            Ok(_) => {
                let phase = usize::from(matches!(played.before, Phase::Settled(_)));
                self.by_call[kind(&played.call)][phase] += 1;
            }
        }
        add(&mut self.came, &came(played).map(u64::from));
        self.ends_settled = played.after.network().is_settled();
        self.settled += u64::from(self.ends_settled);
    }

    /// At the end of a script.
    pub fn script(&mut self, replayed: &Replayed, seen: Seen) {
        self.scripts += 1;
        let bad = replayed.bad.is_some();
        let ends = [bad, !bad && self.ends_settled];
        add(&mut self.ends, &ends.map(u64::from));
        self.ends_settled = false;
        let too_long = matches!(replayed.bad, Some((_, Bad::TooLong(_))));
        self.came[CAME.len() - 1] += u64::from(too_long);
        let Seen {
            rests,
            quiet_rounds,
            packets,
        } = seen;
        add(&mut self.seen, &[rests, quiet_rounds, packets]);
    }

    pub fn add(&mut self, other: &ScriptCounts) {
        self.scripts += other.scripts;
        self.calls += other.calls;
        add(&mut self.by_number, &other.by_number);
        for (counts, others) in self.by_call.iter_mut().zip(&other.by_call) {
            add(counts, others);
        }
        add(&mut self.came, &other.came);
        self.settled += other.settled;
        add(&mut self.ends, &other.ends);
        add(&mut self.seen, &other.seen);
    }

    pub fn print(&self) {
        let (scripts, calls) = (self.scripts, self.calls);
        println!("{scripts} scripts with {calls} calls, no difference");
        let [bad, lists] = self.ends;
        println!("ended by a bad line: {bad}, with a list: {lists}");
        for (number, times) in self.by_number.iter().enumerate().skip(1) {
            println!("refused with {number:2}, {}: {times}", REFUSALS[number]);
        }
        println!("refused: {}", self.refused());
        for (phase, name) in ["running", "settled"].into_iter().enumerate() {
            let calls = NAMES.iter().zip(self.by_call);
            let offered = calls.filter(|(call, _)| offered(call)[phase]);
            let accepted = offered.map(|(call, times)| format!("{call} {}", times[phase]));
            let accepted: Vec<String> = accepted.collect();
            println!("accepted by a {name} network: {}", accepted.join(", "));
        }
        for (what, times) in CAME.iter().zip(self.came) {
            println!("{what}: {times}");
        }
        println!("left the network settled: {}", self.settled);
        let [rests, quiet_rounds, packets] = self.seen;
        println!("six rounds after a change, outside of settle: {rests}");
        println!("rounds without an alteration, outside of settle: {quiet_rounds}");
        println!("packets followed in settled networks: {packets}");
        if self.scripts < ENOUGH {
            println!("fewer than {ENOUGH} scripts need not reach all of this");
        }
    }

    fn refused(&self) -> u64 {
        self.by_number.iter().sum()
    }

    /// Whether each call was accepted by networks of each kind that offers it.
    fn all_accepted(&self) -> bool {
        NAMES.iter().zip(self.by_call).all(|(call, times)| {
            let mut kinds = offered(call).into_iter().zip(times);
            kinds.all(|(offered, times)| !offered || times > 0)
        })
    }

    /// What the scripts should have reached and did not, if anything.
    pub fn missing(&self) -> Option<String> {
        let never = |times: &[u64]| times.contains(&0);
        let (calls, refused) = (self.calls, self.refused());
        let why = if self.scripts < ENOUGH {
            return None;
        } else if never(&self.by_number[1..]) {
            "some refusal was never reached"
        } else if !self.all_accepted() {
            "some call was never accepted"
        } else if let Some(what) = self.came.iter().position(|times| *times == 0) {
            return Some(format!("never {}", CAME[what]));
        } else if never(&self.ends) || never(&self.seen) {
            "some end never came, or some promise had nothing to say"
        } else if refused * 4 < calls || calls < refused * 2 {
            "fewer than a quarter of the calls were refused, or more than half"
        } else if self.settled * 4 < calls || calls * 9 < self.settled * 10 {
            "fewer than a quarter of the calls left the network settled, or nearly all"
        } else {
            return None;
        };
        Some(why.into())
    }
}

/// Which of `CAME` a call came to, but for the last, to which none does.
fn came(played: &Played) -> [bool; CAME.len()] {
    let network = played.before.network();
    let mut came = [false; CAME.len()];
    came[0] = played.altered().next().is_some();
    match (&played.call, &played.answer) {
        (Call::Trace(router, length), Ok(Answer::Way(way))) => {
            if let Some((met, exit)) = way {
                came[1] = true;
                came[2] = met.len() == MOST_ROUTERS;
                came[3] = network.best(*router) != Ok(Some(*exit));
            }
            came[4] = way.is_none();
            came[5] = *length == TRACE_BUFFER;
            came[6] = *length > TRACE_BUFFER;
        }
        (Call::Trace(_, length), Err(refusal)) => {
            came[7] = refusal.number == SHORT_BUFFER;
            came[8] = refusal.number == UNDECLARED_ROUTER && *length < TRACE_BUFFER;
        }
        (Call::List(length), Ok(Answer::Text(text))) => {
            came[9] = *length == LIST_BUFFER;
            came[10] = *length > LIST_BUFFER;
            came[11] = text.is_empty();
        }
        (Call::List(_), Err(_)) => came[12] = true,
        (_, Ok(answer)) => {
            came[13] = matches!(answer, Answer::Best(None) | Answer::Metric(None));
            came[14] = *answer == Answer::IsSettled(false);
        }
        _ => (),
    }
    came
}

/// Whether a running network offers the call, and whether a settled one does.
fn offered(call: &str) -> [bool; 2] {
    match call {
        "trace" | "list" | "reopen" => [false, true],
        "best" | "metric" | "known" | "advertised" | "injected" | "settled" => [true, true],
        _ => [true, false],
    }
}

/// The place of its name.
fn kind(call: &Call) -> usize {
    let text = call.to_string();
    let name = text.split(' ').next();
    let place = NAMES.iter().position(|of| Some(*of) == name);
    place.expect("a call has a name")
}

#[cfg(test)]
mod tests {
    use super::*;
    use crate::random::Random;
    use crate::replay::replay;
    use crate::scripts::Script;

    fn enough() -> ScriptCounts {
        ScriptCounts {
            scripts: ENOUGH,
            calls: 60,
            by_number: [1; REFUSALS.len()],
            by_call: [[1; 2]; NAMES.len()],
            came: [1; CAME.len()],
            settled: 30,
            ends_settled: false,
            ends: [1; 2],
            seen: [1; 3],
        }
    }

    #[test]
    fn enough_scripts_must_reach_every_refusal() {
        let mut counts = enough();
        assert_eq!(counts.missing(), None);
        counts.by_number[16] = 0;
        assert!(counts.missing().is_some());
        counts.scripts -= 1;
        assert_eq!(counts.missing(), None);
    }

    #[test]
    fn enough_scripts_must_reach_every_call_and_the_longest_way() {
        let mut counts = enough();
        let list = kind(&Call::List(512));
        counts.by_call[list] = [0, 1];
        assert_eq!(counts.missing(), None);
        counts.by_call[list] = [1, 0];
        assert_eq!(counts.missing().unwrap(), "some call was never accepted");
        counts.by_call[list] = [0, 1];
        counts.came[2] = 0;
        let missing = "never traced one that met 32 routers";
        assert_eq!(counts.missing().unwrap(), missing);
    }

    #[test]
    fn every_call_has_its_name() {
        assert_eq!(NAMES[kind(&Call::Load("a".into()))], "load");
        assert_eq!(NAMES[kind(&Call::Step(0))], "step");
        assert_eq!(NAMES[kind(&Call::Reopen)], "reopen");
        assert_eq!(NAMES[kind(&Call::Trace(0, 20))], "trace");
        assert_eq!(NAMES[kind(&Call::IsSettled)], "settled");
    }

    #[test]
    fn random_scripts_reach_all_of_it() {
        let mut counts = ScriptCounts::default();
        for number in 0..ENOUGH {
            let script = Script::draw(&mut Random::numbered(2, number));
            let read = |file: &str| script.tables.read(file);
            let replayed = replay(script.text.as_bytes(), &read, |played| counts.call(played));
            counts.script(
                &replayed,
                Seen {
                    rests: 1,
                    quiet_rounds: 1,
                    packets: 1,
                },
            );
        }
        assert_eq!(counts.missing(), None);
    }
}
