//! How a random script spells a call: with spaces and comments, and routers of a step in any order.

use crate::network::{LIST_BUFFER, TRACE_BUFFER};
use crate::phase::Phase;
use crate::random::Random;
use crate::script::{Call, MOST_BUFFER};

/// The line of a call, and at times lines without a call before it.
pub fn line(random: &mut Random, call: &Call) -> String {
    let mut words: Vec<String> = call.to_string().split(' ').map(String::from).collect();
    match call {
        Call::Trace(_, TRACE_BUFFER) if random.once_in(4) => words.push(TRACE_BUFFER.to_string()),
        Call::List(LIST_BUFFER) if random.once_in(4) => words.push(LIST_BUFFER.to_string()),
        _ => (),
    }
    let (_, operands) = words.split_first_mut().expect("a call has a name");
    if let Call::Step(_) = call {
        random.shuffle(operands);
    }
    for operand in operands.iter_mut() {
        let is_number = operand.bytes().all(|byte| byte.is_ascii_digit());
        if is_number && random.once_in(20) {
            *operand = format!("{}{operand}", random.pick(&["0", "00", "0000000000"]));
        }
    }
    if let (Call::Step(_), true) = (call, words.len() > 1) {
        // Some router is named twice.
        if random.once_in(4) {
            let again = words[random.between(1, words.len() - 1)].clone();
            words.insert(random.between(1, words.len()), again);
        }
    }
    let mut text = String::new();
    if random.once_in(16) {
        text += random.pick(&["\n", "   \n", "# settle\n", " #\n"]);
    }
    text += seldom(random, "  ");
    for (place, word) in words.iter().enumerate() {
        if place > 0 {
            text += random.pick(&[" ", " ", " ", " ", "   "]);
        }
        text += word;
    }
    text += seldom(random, "  ");
    text += seldom(random, "#settle");
    text += seldom(random, " # reopen # 7");
    text + "\n"
}

fn seldom<'a>(random: &mut Random, text: &'a str) -> &'a str {
    match random.once_in(10) {
        true => text,
        false => "",
    }
}

const NO_CALLS: [&str; 26] = [
    "stop",
    "lists",
    "known",
    "metric # 1",
    "injected 0",
    "settled now",
    "list 512 512",
    "list some",
    "trace 0 -32",
    "Settle",
    "settle now",
    "reopen 1",
    "load",
    "inject # 1",
    "best 1 2",
    "trace 0 32 0",
    "inject x",
    "best -1",
    "restart 1.5",
    "step 0 one",
    "withdraw 4294967296",
    "best 340282366920938463463374607431768211456",
    "step 32",
    "step 31 0 4294967295",
    "load missing.table",
    "load .",
];

/// A line that ends the run of this network.
pub fn bad_line(random: &mut Random, network: &Phase) -> String {
    let out_of_place: &[&str] = match network {
        Phase::Running(_) => &["reopen", "trace 0", "trace 99 20", "list", "list 511"],
        Phase::Settled(_) => &[
            "load sound-0.table",
            "inject 0",
            "withdraw 99",
            "restart 0",
            "step 0",
            "step",
            "settle",
        ],
    };
    let line = match random.below(5) {
        0 | 1 => random.pick(&NO_CALLS).into(),
        2 | 3 => random.pick(out_of_place).into(),
        _ => {
            let call = random.pick(&["list", "trace 0", "trace 31"]);
            let some = random.between(MOST_BUFFER + 1, u32::MAX as usize);
            let length = random.pick(&[MOST_BUFFER + 1, some, u32::MAX as usize]);
            format!("{call} {length}")
        }
    };
    line + "\n"
}
