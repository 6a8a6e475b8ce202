//! `bench`: how long the library's call takes, beside this package's, on the same tables.

#[path = "../linked.rs"]
mod linked;

use independent::direct::{direct, direct_with};
use independent::sets::below;
use independent::shapes::{Shape, COLUMNS, PATHS, ROUTERS, TABLES};
use independent::{encode, nearest};
use std::time::Instant;

/// How often a batch goes through the tables of a size.
const ROUNDS: usize = 50;
const BATCHES: usize = 50;

type Call = fn(&[u8], u64, &mut [u8]) -> u64;

/// The library; this package, which works out all distances as the library does; and this package
/// by a shorter way, which spreads the choices over the links and works out no distances.
const CALLS: [Call; 3] = [linked::direct, direct, spreading];

fn spreading(table: &[u8], injected: u64, buffer: &mut [u8]) -> u64 {
    direct_with(table, injected, buffer, nearest::choose)
}

/// The tables of one size, and microseconds a call, the least of the batches so far.
struct Measured {
    shape: Shape,
    bytes: Vec<Vec<u8>>,
    least: [f64; 3],
}

fn main() {
    let all = Shape::all().into_iter().map(Measured::new);
    let mut all: Vec<Measured> = all.collect();
    // The calls take turns, and so do the sizes, so that a slow moment of the machine hits all.
    for _ in 0..BATCHES {
        all.iter_mut().for_each(Measured::batches);
    }
    let calls = TABLES * ROUNDS;
    println!(
        "microseconds a call, the least of {BATCHES} batches of {calls} calls; all paths injected"
    );
    println!("buffers are not cleared before a call: it writes over the answer of the one before");
    println!(
        "'independent' works out all distances first, 'spreading' none; a ratio is library / it"
    );
    println!();
    println!("{COLUMNS}   library  independent  ratio  spreading  ratio");
    all.iter().for_each(Measured::print);
    growth(&all);
}

impl Measured {
    fn new(shape: Shape) -> Measured {
        let bytes = shape.tables.iter();
        let bytes = bytes.map(|table| encode::records(table).concat());
        let bytes: Vec<Vec<u8>> = bytes.collect();
        for table in &bytes {
            agree(table, below(shape.paths));
        }
        Measured {
            shape,
            bytes,
            least: [f64::INFINITY; 3],
        }
    }

    fn batches(&mut self) {
        for (call, least) in CALLS.into_iter().zip(&mut self.least) {
            *least = least.min(batch(call, &self.bytes, below(self.shape.paths)));
        }
    }

    fn print(&self) {
        let [library, independent, spreading] = self.least;
        println!(
            "{} {library:9.3} {independent:12.3} {:6.2} {spreading:10.3} {:6.2}",
            self.shape.columns(),
            library / independent,
            library / spreading,
        );
    }
}

/// Every call does and writes the same.
fn agree(table: &[u8], injected: u64) {
    let answers = CALLS.map(|call| {
        let mut buffer = [7; 40];
        let answer = call(table, injected, &mut buffer);
        (answer, buffer)
    });
    assert_eq!(answers[0].0, 0, "the library refuses a table");
    assert!(
        answers.iter().all(|answer| *answer == answers[0]),
        "the answers differ"
    );
}

/// Microseconds a call.
fn batch(call: Call, tables: &[Vec<u8>], injected: u64) -> f64 {
    let mut buffer = [0; 32];
    let start = Instant::now();
    for _ in 0..ROUNDS {
        for table in tables {
            once(call, table, injected, &mut buffer);
        }
    }
    let calls = ROUNDS * tables.len();
    start.elapsed().as_secs_f64() * 1e6 / calls as f64
}

/// One call, which the compiler cannot leave out.
#[inline(never)]
fn once(call: Call, table: &[u8], injected: u64, buffer: &mut [u8]) {
    assert_eq!(call(table, injected, buffer), 0, "a table is refused");
}

/// How many times as long the largest tables take as the smallest.
fn growth(all: &[Measured]) {
    let times = |routers, paths| {
        let is = |measured: &&Measured| {
            (measured.shape.routers, measured.shape.paths) == (routers, paths)
        };
        all.iter().find(is).expect("it was measured").least
    };
    let line = |what: String, from: [f64; 3], to: [f64; 3]| {
        let [library, independent, spreading] = [0, 1, 2].map(|call| to[call] / from[call]);
        println!("{what:27} {library:11.1} {independent:12.1} {spreading:17.1}");
    };
    println!();
    println!("times as long                   library  independent         spreading");
    for paths in PATHS {
        let what = format!("4 to 32 routers, {paths:2} paths");
        line(what, times(4, paths), times(32, paths));
    }
    for routers in ROUTERS {
        let what = format!("1 to 64 paths, {routers:2} routers");
        line(what, times(routers, 1), times(routers, 64));
    }
}
