//! `bench_network [PROGRAM]`: how long calls of a network take, on tables of the shapes that `bench`
//! has; and beside them how long they take in a program that times itself on a table from standard
//! input.

use independent::encode;
use independent::network::{Running, Settled, LIST_BUFFER};
use independent::program;
use independent::rules::five_stage;
use independent::sets::below;
use independent::shapes::{Shape, COLUMNS, TABLES};
use independent::table::Table;
use std::time::Instant;
use std::{env, mem};

/// How often a batch goes through the networks of a size.
const ROUNDS: usize = 50;
const BATCHES: usize = 50;

/// What is timed, in the order of all columns.
const CALLS: [&str; 4] = ["step all", "step one", "settle", "list"];

/// The networks of one size, and nanoseconds a call, the least of the batches so far; and the times of
/// the program, the average over the tables.
struct Measured {
    shape: Shape,
    running: Vec<Running>,
    settled: Vec<Settled>,
    least: [f64; 4],
    program: Option<[f64; 4]>,
}

fn main() {
    let all = Shape::all().into_iter().map(Measured::new);
    let mut all: Vec<Measured> = all.collect();
    let program = env::args().nth(1);
    // The sizes take turns, so that a slow moment of the machine hits all.
    for _ in 0..BATCHES {
        all.iter_mut().for_each(Measured::batches);
    }
    if let Some(program) = program {
        all.iter_mut().for_each(|sized| sized.time(&program));
    }
    let calls = TABLES * ROUNDS;
    println!("nanoseconds a call, the least of {BATCHES} batches of {calls} calls");
    println!("all paths injected and the network settled before, so that no call alters a set");
    println!("'step one' takes the routers in turn; 'program' is what the program took, and the ratio program / this");
    println!();
    print!("{COLUMNS}");
    CALLS
        .iter()
        .for_each(|call| print!("   {call:>8}  program  ratio"));
    println!();
    all.iter().for_each(Measured::print);
}

impl Measured {
    fn new(shape: Shape) -> Measured {
        let settled: Vec<Settled> = shape.tables.iter().map(settled).collect();
        let running = settled.iter().cloned().map(Settled::reopen).collect();
        Measured {
            shape,
            running,
            settled,
            least: [f64::INFINITY; 4],
            program: None,
        }
    }

    /// Has the program time each table.
    fn time(&mut self, program: &str) {
        let mut sum = [0.0; 4];
        for table in &self.shape.tables {
            let printed = program::run(program, &encode::records(table).concat());
            let (printed, succeeded) = printed.expect("the program runs");
            assert!(succeeded, "the program refuses a table");
            let times: Vec<f64> = printed
                .lines()
                .map(|line| line.parse().expect("a number"))
                .collect();
            assert_eq!(times.len(), sum.len(), "a time for each call");
            sum.iter_mut()
                .zip(times)
                .for_each(|(sum, time)| *sum += time);
        }
        self.program = Some(sum.map(|sum| sum / TABLES as f64));
    }

    fn batches(&mut self) {
        let routers = self.shape.routers;
        let all = below(routers) as u32;
        let step_all = batch(&mut self.running, |network, _| step(network, all));
        let step_one = batch(&mut self.running, |network, round| {
            step(network, 1 << (round % routers))
        });
        let settle = self.settle();
        let mut buffer = [0; LIST_BUFFER];
        let list = batch(&mut self.settled, |network, _| list(network, &mut buffer));
        let times = [step_all, step_one, settle, list];
        for (least, time) in self.least.iter_mut().zip(times) {
            *least = least.min(time);
        }
    }

    /// Each network is reopened behind the call, and so is there for the next.
    fn settle(&mut self) -> f64 {
        let start = Instant::now();
        for _ in 0..ROUNDS {
            let networks = mem::take(&mut self.running).into_iter();
            self.running = networks.map(|network| settle(network).reopen()).collect();
        }
        nanoseconds(start)
    }

    fn print(&self) {
        print!("{}", self.shape.columns());
        for call in 0..CALLS.len() {
            print!("   {:8.0}", self.least[call]);
            match self.program {
                Some(times) => print!(
                    "  {:7.0}  {:5.2}",
                    times[call],
                    times[call] / self.least[call]
                ),
                None => print!("        -      -"),
            }
        }
        println!();
    }
}

/// A network of the table with all its paths injected.
fn settled(table: &Table) -> Settled {
    let mut network = Running::new(five_stage);
    let bytes = encode::records(table).concat();
    network.load(&bytes).expect("the table is well-formed");
    for path in 0..table.paths.len() as u32 {
        network.inject(path).expect("the path is declared");
    }
    network.settle()
}

/// Nanoseconds a call, which is told how often the batch has gone through the networks before.
fn batch<N>(networks: &mut [N], mut call: impl FnMut(&mut N, usize)) -> f64 {
    let start = Instant::now();
    for round in 0..ROUNDS {
        for network in &mut *networks {
            call(network, round);
        }
    }
    nanoseconds(start)
}

fn nanoseconds(start: Instant) -> f64 {
    start.elapsed().as_secs_f64() * 1e9 / (ROUNDS * TABLES) as f64
}

// Calls that the compiler cannot leave out or take apart.

#[inline(never)]
fn step(network: &mut Running, routers: u32) {
    assert_eq!(network.step(routers), Ok(()), "a step is refused");
}

#[inline(never)]
fn settle(network: Running) -> Settled {
    network.settle()
}

#[inline(never)]
fn list(network: &Settled, buffer: &mut [u8]) {
    assert!(network.list(buffer).is_ok(), "a list is refused");
}
