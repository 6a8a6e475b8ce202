//! Writes the calls of a random script. About a third of them is refused, and the others are such
//! that the network is often settled.

use crate::network::{LIST_BUFFER, TRACE_BUFFER};
use crate::phase::Phase;
use crate::random::Random;
use crate::script::{Call, MOST_BUFFER};
use crate::scripts::Tables;
use crate::sets::{below, members};
use crate::spelling;
use crate::table::MOST_ROUTERS;

pub struct Writer<'a> {
    random: &'a mut Random,
    tables: &'a Tables,
    text: String,
    /// What the calls so far have come to.
    network: Phase,
    /// So many calls are still to come.
    left: usize,
}

impl<'a> Writer<'a> {
    pub fn new(random: &'a mut Random, tables: &'a Tables, calls: usize) -> Writer<'a> {
        Writer {
            random,
            tables,
            text: String::new(),
            network: Phase::empty(),
            left: calls,
        }
    }

    pub fn written(self) -> (String, Phase) {
        (self.text, self.network)
    }

    pub fn write(&mut self) {
        if self.random.once_in(4) {
            self.settle();
        }
        self.load();
        while self.left > 0 {
            match self.random.below(16) {
                0 => self.load(),
                1..=4 => self.inject(),
                5 | 6 => self.withdraw(),
                7 => self.restart(),
                8 => self.steps(),
                9..=12 => self.rounds(),
                13 => self.questions(),
                _ => self.settle(),
            }
        }
    }

    fn load(&mut self) {
        let which = self.random.below(self.tables.sound.len());
        self.say(Call::Load(self.tables.sound[which].0.clone()));
    }

    fn inject(&mut self) {
        let some = self.random.between(1, 8);
        let most = self.random.pick(&[some, some, some, usize::MAX]);
        for path in self.some(self.declared() & !self.injected(), most) {
            self.say(Call::Inject(path));
        }
    }

    fn withdraw(&mut self) {
        let most = self.random.pick(&[1, 1, 2, 3, 8, usize::MAX]);
        for path in self.some(self.injected(), most) {
            self.say(Call::Withdraw(path));
        }
    }

    fn restart(&mut self) {
        let most = self.random.between(1, 3);
        for router in self.some(below(self.routers()), most) {
            self.say(Call::Restart(router));
        }
    }

    /// Steps of any routers.
    fn steps(&mut self) {
        for _ in 0..self.random.between(1, 6) {
            let routers = below(self.routers()) & self.random.word();
            self.say(Call::Step(routers as u32));
        }
    }

    /// Rounds, often as many as settle the network. In each every router is named, some of them
    /// twice at times.
    fn rounds(&mut self) {
        let rounds = match self.network.network().is_settled() {
            true => self.random.between(1, 2),
            false => self.random.pick(&[1, 2, 4, 6, 7, 8]),
        };
        for _ in 0..rounds {
            let order = self.some(below(self.routers()), MOST_ROUTERS);
            let steps = self.random.pick(&[1, 1, 2, 3, 4, order.len()]);
            for part in order.chunks((order.len() / steps).max(1)) {
                let part = part.iter().fold(0, |set, router| set | 1 << router);
                let again = self.random.pick(&order);
                let again = self.random.pick(&[0, 1 << again]);
                self.say(Call::Step(part | again));
            }
            if self.random.once_in(6) {
                self.question();
            }
        }
    }

    fn questions(&mut self) {
        for _ in 0..self.random.between(1, 4) {
            self.question();
        }
    }

    /// What a network answers whether it runs or is settled.
    fn question(&mut self) {
        let router = self.router();
        let question = match self.random.below(6) {
            0 => Call::Injected,
            1 => Call::IsSettled,
            _ => self.question_of(router),
        };
        self.say(question);
    }

    fn settle(&mut self) {
        self.say(Call::Settle);
        for _ in 0..self.random.below(6) {
            match self.random.below(6) {
                0 => {
                    let length = self.long(LIST_BUFFER);
                    self.say(Call::List(length));
                }
                1 | 2 => self.question(),
                _ => self.trace(),
            }
        }
        self.say(Call::Reopen);
    }

    /// From any router, and often from one whose packet goes far or leaves by another's exit.
    fn trace(&mut self) {
        let any = self.router();
        let early = self.early().unwrap_or(any);
        let router = self.random.pick(&[any, early, self.farthest()]);
        let length = self.long(TRACE_BUFFER);
        self.say(Call::Trace(router, length));
    }

    /// A declared router, where there is one.
    fn router(&mut self) -> u32 {
        self.random.below(self.routers().max(1)) as u32
    }

    /// The router whose packet meets the most, where packets leave.
    fn farthest(&self) -> u32 {
        let meets = |router: &u32| self.way(*router).map(|(count, _)| count);
        let routers = 0..self.routers() as u32;
        routers.max_by_key(meets).unwrap_or(0)
    }

    /// A router whose packet leaves by another path than the router takes.
    fn early(&self) -> Option<u32> {
        let mut routers = 0..self.routers() as u32;
        routers.find(|router| {
            let taken = self.network.network().best(*router);
            let exit = self.way(*router).map(|(_, exit)| exit);
            exit.is_some() && taken != Ok(exit)
        })
    }

    /// How many routers a packet meets and by which path it leaves, where the network is settled.
    fn way(&self, router: u32) -> Option<(usize, usize)> {
        match &self.network {
            Phase::Running(_) => None,
            Phase::Settled(network) => network.trace(router, &mut [0; TRACE_BUFFER]).ok()?,
        }
    }

    /// The length of a buffer that suffices, most often just.
    fn long(&mut self, least: usize) -> usize {
        let some = self.random.between(least, 2 * least);
        self.random
            .pick(&[least, least, least, least, least + 1, some, MOST_BUFFER])
    }

    /// The length of one that does not, most often just.
    fn short(&mut self, least: usize) -> usize {
        let some = self.random.below(least);
        self.random.pick(&[least - 1, least - 1, some, 0])
    }

    /// The call, and at times others before it that are refused.
    fn say(&mut self, call: Call) {
        while self.random.once_in(3) {
            let refused = self.refused();
            self.line(refused);
        }
        self.line(call);
    }

    fn line(&mut self, call: Call) {
        if self.left > 0 {
            self.left -= 1;
            self.text += &spelling::line(self.random, &call);
            let network = self.network.clone();
            let played = network.play(call, &|file| self.tables.read(file));
            self.network = played.expect("the call is in its place").after;
        }
    }

    /// A call in its place that is refused.
    fn refused(&mut self) -> Call {
        let no_router = self.past(self.routers());
        if let Phase::Settled(_) = self.network {
            let (long, short) = (self.long(TRACE_BUFFER), self.short(TRACE_BUFFER));
            let list = self.short(LIST_BUFFER);
            return match self.random.below(10) {
                0 | 1 => Call::Trace(no_router, long),
                2 => Call::Trace(no_router, short),
                // Refused with 12 where there is no router at all.
                3 | 4 => Call::Trace(self.router(), short),
                5 | 6 => Call::List(list),
                _ => self.question_of(no_router),
            };
        }
        let no_path = self.past(self.declared().count_ones() as usize);
        let which = self.random.below(self.tables.refused.len());
        let load = Call::Load(self.tables.refused[which].0.clone());
        let mut calls = vec![
            load.clone(),
            load,
            Call::Inject(no_path),
            Call::Withdraw(no_path),
            Call::Restart(no_router),
            Call::Step(0),
            self.question_of(no_router),
        ];
        let some = self.random.word() as u32 & self.random.word() as u32;
        let undeclared = u32::MAX.checked_shl(self.routers() as u32).unwrap_or(0);
        if some & undeclared != 0 {
            calls.push(Call::Step(some));
        }
        let injected = self.some(self.injected(), 1);
        calls.extend(injected.into_iter().map(Call::Inject));
        let others = self.some(self.declared() & !self.injected(), 1);
        calls.extend(others.into_iter().map(Call::Withdraw));
        calls.swap_remove(self.random.below(calls.len()))
    }

    /// A question about this router.
    fn question_of(&mut self, router: u32) -> Call {
        match self.random.below(4) {
            0 => Call::Best(router),
            1 => Call::Metric(router),
            2 => Call::Known(router),
            _ => Call::Advertised(router),
        }
    }

    /// A number that is not declared where these many are.
    fn past(&mut self, count: usize) -> u32 {
        let next = count as u32;
        let far = self
            .random
            .pick(&[31, 32, 63, 64, 70, 255, 256, 1 << 31, u32::MAX]);
        self.random.pick(&[next, next + 1, far.max(next)])
    }

    /// Some members in any order.
    fn some(&mut self, set: u64, most: usize) -> Vec<u32> {
        let mut some: Vec<u32> = members(set).map(|member| member as u32).collect();
        self.random.shuffle(&mut some);
        some.truncate(most);
        some
    }

    fn routers(&self) -> usize {
        self.network.network().table().routers.len()
    }

    fn declared(&self) -> u64 {
        below(self.network.network().table().paths.len())
    }

    fn injected(&self) -> u64 {
        self.network.network().sets().injected
    }
}
