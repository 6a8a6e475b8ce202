//! `replay`: plays the script on standard input, as the program of that name does.

use independent::replay::replay;
use std::io::{self, Read};
use std::{fs, process};

fn main() {
    let mut script = Vec::new();
    io::stdin()
        .read_to_end(&mut script)
        .expect("standard input can be read");
    let replayed = replay(&script, &|file| fs::read(file), |_| ());
    print!("{}", replayed.printed);
    if let Some(message) = replayed.message() {
        eprintln!("{message}");
        process::exit(1);
    }
}
