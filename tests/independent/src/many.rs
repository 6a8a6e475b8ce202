//! What the comparing programs share: their arguments, and playing many numbers on a few threads.

use std::process::exit;
use std::sync::atomic::{AtomicBool, Ordering};
use std::{env, thread};

const MOST_THREADS: usize = 4;

pub fn stop(why: &str) -> ! {
    eprintln!("{why}");
    exit(1)
}

/// How many to play, and the seed, which is 1 if none is given.
pub fn arguments(usage: &str, many: u64) -> (u64, u64) {
    let mut arguments = env::args().skip(1);
    let mut argument = |otherwise| match arguments.next() {
        None => otherwise,
        Some(text) => text.parse().unwrap_or_else(|_| stop(usage)),
    };
    (argument(many), argument(1))
}

/// Plays the numbers below `many`, each thread some of them, none after a difference was found. Which numbers are played does
/// not turn on the threads.
pub fn play_all<C: Send>(
    many: u64,
    play: impl Fn(&mut dyn Iterator<Item = u64>) -> Result<C, String> + Sync,
) -> Result<Vec<C>, String> {
    let threads = thread::available_parallelism().map_or(1, |count| count.get());
    let threads = threads.min(MOST_THREADS);
    let failed = AtomicBool::new(false);
    let some = |first: usize| {
        let numbers = (first as u64..many).step_by(threads);
        let mut unless_failed = numbers.take_while(|_| !failed.load(Ordering::Relaxed));
        let counts = play(&mut unless_failed);
        failed.fetch_or(counts.is_err(), Ordering::Relaxed);
        counts
    };
    thread::scope(|scope| {
        let some = &some;
        let running: Vec<_> = (0..threads)
            .map(|first| scope.spawn(move || some(first)))
            .collect();
        let played = running
            .into_iter()
            .map(|thread| thread.join().expect("a thread ends"));
        let (found, differences): (Vec<_>, Vec<_>) = played.partition(|counts| counts.is_ok());
        let differences: Vec<_> = differences.into_iter().filter_map(Result::err).collect();
        match differences.is_empty() {
            true => Ok(found.into_iter().flatten().collect()),
            false => Err(differences.join("\n")),
        }
    })
}
