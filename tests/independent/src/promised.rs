//! What docs/PROTOCOL.md promises of every run, asked of a run call by call.

use crate::direct::NO_PATH;
use crate::distances::Distances;
use crate::forwarding::{way, Way};
use crate::nearest;
use crate::network::{Network, Running};
use crate::phase::{Answer, Phase, Played};
use crate::script::Call;
use crate::sets::below;
use crate::table::Table;
use crate::ways;

/// So many rounds after a change the network is settled.
const ROUNDS: usize = 6;

/// A run, as far as it has been watched.
#[derive(Default)]
pub struct Watch {
    /// Rounds since the last change, as many as can be counted without an overlap.
    rounds: usize,
    /// The routers that accepted steps have named since the last of these.
    named: u64,
    /// Those that they have named since the last change, and the last call that altered an
    /// advertised set.
    quiet: u64,
    /// The table loaded last has been asked about this set.
    asked: Option<u64>,
    pub seen: Seen,
}

/// How often a promise had something to say.
#[derive(Clone, Copy, Debug, Default)]
pub struct Seen {
    /// Steps with which six rounds had passed since the last change, without a settle.
    pub rests: u64,
    /// Rounds without an alteration, outside of settle.
    pub quiet_rounds: u64,
    /// Packets that were followed.
    pub packets: u64,
}

type Holds = Result<(), String>;

impl Watch {
    pub fn call(&mut self, played: &Played) -> Holds {
        let (before, after) = (played.before.network(), played.after.network());
        match (&played.call, &played.answer) {
            (_, Err(_)) => unaltered(before, after)?,
            (Call::Load(_), Ok(_)) => {
                self.asked = None;
                self.change();
            }
            (Call::Inject(_) | Call::Withdraw(_) | Call::Restart(_), Ok(_)) => self.change(),
            (Call::Step(routers), Ok(_)) => {
                let rounds = self.rounds;
                self.step(*routers, before, after)?;
                self.seen.rests += u64::from(rounds < ROUNDS && self.rounds == ROUNDS);
            }
            (Call::Settle, Ok(_)) => self.settle(played)?,
            (Call::Trace(router, _), Ok(Answer::Way(answer))) => {
                unaltered(before, after)?;
                traced(after, *router as usize, answer)?;
            }
            (Call::List(_), Ok(Answer::Text(text))) => {
                unaltered(before, after)?;
                listed(after, text)?;
            }
            (
                Call::Best(_)
                | Call::Metric(_)
                | Call::Known(_)
                | Call::Advertised(_)
                | Call::Injected
                | Call::IsSettled
                | Call::Trace(..)
                | Call::List(_)
                | Call::Reopen,
                Ok(_),
            ) => unaltered(before, after)?,
        }
        self.packets(after)
    }

    fn change(&mut self) {
        self.rounds = 0;
        self.named = 0;
        self.quiet = 0;
    }

    fn step(&mut self, routers: u32, before: &Network, after: &Network) -> Holds {
        let all = below(after.table().routers.len());
        let altered = before.sets().advertised != after.sets().advertised;
        check(
            self.rounds < ROUNDS || !altered,
            "a step alters an advertised set after six rounds",
        )?;
        check(
            self.rounds < ROUNDS || bests(before) == bests(after),
            "a step alters a best path after six rounds",
        )?;
        self.named |= routers as u64;
        if self.named == all {
            self.named = 0;
            self.rounds += 1;
        }
        if self.rounds >= ROUNDS {
            check(after.is_settled(), "six rounds have not settled")?;
        }
        self.quiet |= routers as u64;
        if altered {
            self.quiet = 0;
        }
        if self.quiet == all {
            check(after.is_settled(), "a quiet round of one not settled")?;
            self.quiet = 0;
            self.seen.quiet_rounds += 1;
        }
        Ok(())
    }

    /// Settle counts as the steps that it makes.
    fn settle(&mut self, played: &Played) -> Holds {
        let mut network: Running = match &played.before {
            Phase::Running(network) => network.clone(),
            Phase::Settled(_) => return Err("a settled network offers settle".into()),
        };
        let seen = self.seen;
        for _ in 0..7 {
            for router in 0..network.network().table().routers.len() {
                let before = network.clone();
                network.step(1 << router).expect("it is declared");
                self.step(1 << router, before.network(), network.network())?;
            }
        }
        self.seen = seen;
        let after = played.after.network();
        let same = network.network().sets() == after.sets();
        check(same, "settle is not seven rounds of steps")?;
        check(after.is_settled(), "settle has not settled")
    }

    /// In a settled network every packet leaves, and best paths are those by another way.
    fn packets(&mut self, network: &Network) -> Holds {
        let kept = network.kept();
        if kept == 0 || self.asked == Some(kept) || !network.is_settled() {
            return Ok(());
        }
        self.asked = Some(kept);
        let table = network.table();
        let mut room = vec![NO_PATH; table.routers.len()];
        nearest::choose(table, kept, &mut room);
        let by_spreading: Vec<_> = room.iter().map(|&path| Some(path as usize)).collect();
        check(bests(network) == by_spreading, "best paths differ")?;
        self.seen.packets += table.routers.len() as u64;
        ways::broken(table, kept).map_or(Ok(()), Err)
    }
}

fn check(holds: bool, what: &str) -> Holds {
    match holds {
        true => Ok(()),
        false => Err(what.into()),
    }
}

fn unaltered(before: &Network, after: &Network) -> Holds {
    check(
        before.sets() == after.sets() && before.table() == after.table(),
        "something altered",
    )
}

fn bests(network: &Network) -> Vec<Option<usize>> {
    let routers = 0..network.table().routers.len() as u32;
    let best = |router| network.best(router).expect("it is declared");
    routers.map(best).collect()
}

/// A trace writes the routers that the packet meets.
fn traced(network: &Network, router: usize, answer: &Option<(Vec<u8>, usize)>) -> Holds {
    let table: &Table = network.table();
    let way = way(table, &Distances::of(table), router, network.kept());
    let bytes = |Way { met, exit }| (met.into_iter().map(|met| met as u8).collect(), exit);
    check(*answer == way.map(bytes), "a trace is not the way")
}

/// The list has of each router what the network answers when it is asked for that router alone.
fn listed(network: &Network, text: &str) -> Holds {
    let mut lines = text.lines();
    for router in 0..network.table().routers.len() as u32 {
        let best = network.best(router).expect("it is declared");
        let metric = network.metric(router).expect("it is declared");
        let line = match best.zip(metric) {
            Some((path, metric)) => format!("R{router} P{path} {metric}"),
            None => format!("R{router} - -"),
        };
        check(lines.next() == Some(&line), "a line of the list differs")?;
    }
    check(lines.next().is_none(), "the list has a line too many")
}
