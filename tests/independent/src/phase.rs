//! A call of a script, played on a network that runs or is settled (docs/PROTOCOL.md).

use crate::network::{Network, Running, Settled};
use crate::rules::five_stage;
use crate::script::{Bad, Call};
use crate::table::Refusal;
use std::io;

/// A network as a call of a script finds it.
#[derive(Clone)]
pub enum Phase {
    Running(Running),
    Settled(Settled),
}

#[derive(Clone, Debug, PartialEq, Eq)]
pub enum Answer {
    Done,
    Best(Option<usize>),
    Metric(Option<u32>),
    /// Some paths.
    Set(u64),
    IsSettled(bool),
    /// The list, as it stands in the buffer.
    Text(String),
    /// The routers met, and the path by which the packet leaves.
    Way(Option<(Vec<u8>, usize)>),
}

/// One call, and the network before and after.
pub struct Played {
    pub before: Phase,
    pub call: Call,
    pub answer: Result<Answer, Refusal>,
    pub after: Phase,
}

/// How a file is read.
pub type Read<'a> = &'a dyn Fn(&str) -> io::Result<Vec<u8>>;

impl Phase {
    /// An empty network under the five-stage rule.
    pub fn empty() -> Phase {
        Phase::Running(Running::new(five_stage))
    }

    pub fn network(&self) -> &Network {
        match self {
            Phase::Running(network) => network.network(),
            Phase::Settled(network) => network.network(),
        }
    }

    pub fn play(self, call: Call, read: Read) -> Result<Played, Bad> {
        let before = self.clone();
        // A file is read even where the call is out of place.
        let table = match &call {
            Call::Load(file) => {
                read(file).map_err(|why| Bad::Unread(file.clone(), why.to_string()))?
            }
            _ => Vec::new(),
        };
        let (after, answer) = match self {
            Phase::Running(network) => in_running(network, &call, &table)?,
            Phase::Settled(network) => in_settled(network, &call)?,
        };
        Ok(Played {
            before,
            call,
            answer,
            after,
        })
    }
}

type Turned = (Phase, Result<Answer, Refusal>);

fn in_running(mut network: Running, call: &Call, table: &[u8]) -> Result<Turned, Bad> {
    let done = |answer: Result<(), Refusal>| answer.map(|()| Answer::Done);
    let answer = match call {
        Call::Load(_) => done(network.load(table)),
        Call::Inject(path) => done(network.inject(*path)),
        Call::Withdraw(path) => done(network.withdraw(*path)),
        Call::Restart(router) => done(network.restart(*router)),
        Call::Step(routers) => done(network.step(*routers)),
        Call::Settle => return Ok((Phase::Settled(network.settle()), Ok(Answer::Done))),
        call => match asked(network.network(), call) {
            Some(answer) => answer,
            None => return Err(Bad::OutOfPlace(call.clone(), true)),
        },
    };
    Ok((Phase::Running(network), answer))
}

fn in_settled(network: Settled, call: &Call) -> Result<Turned, Bad> {
    let answer = match call {
        Call::Trace(router, length) => {
            let mut met = vec![0; *length];
            let way = network.trace(*router, &mut met);
            let routers = |(count, exit)| (met[..count].to_vec(), exit);
            way.map(|way| Answer::Way(way.map(routers)))
        }
        Call::List(length) => {
            let mut buffer = vec![0; *length];
            let written = network.list(&mut buffer);
            let text = |count| String::from_utf8_lossy(&buffer[..count]).into_owned();
            written.map(|count| Answer::Text(text(count)))
        }
        Call::Reopen => return Ok((Phase::Running(network.reopen()), Ok(Answer::Done))),
        call => match asked(network.network(), call) {
            Some(answer) => answer,
            None => return Err(Bad::OutOfPlace(call.clone(), false)),
        },
    };
    Ok((Phase::Settled(network), answer))
}

/// The answer to a question, which a network takes whether it runs or is settled; none where the
/// call is no such question.
fn asked(network: &Network, call: &Call) -> Option<Result<Answer, Refusal>> {
    let answer = match call {
        Call::Best(router) => network.best(*router).map(Answer::Best),
        Call::Metric(router) => network.metric(*router).map(Answer::Metric),
        Call::Known(router) => network.known(*router).map(Answer::Set),
        Call::Advertised(router) => network.advertised(*router).map(Answer::Set),
        Call::Injected => Ok(Answer::Set(network.sets().injected)),
        Call::IsSettled => Ok(Answer::IsSettled(network.is_settled())),
        _ => return None,
    };
    Some(answer)
}

impl Played {
    /// The routers whose advertised sets the call altered, with their new sets.
    pub fn altered(&self) -> impl Iterator<Item = (usize, u64)> + '_ {
        let sets = |phase: &Phase| phase.network().sets().advertised;
        let (before, after) = (sets(&self.before), sets(&self.after));
        let numbered = after.into_iter().enumerate();
        numbered.filter(move |&(router, set)| set != before[router])
    }
}
