//! The lines of a script for `replay` (docs/PROTOCOL.md).

use crate::network::{LIST_BUFFER, TRACE_BUFFER};
use crate::sets::members;
use crate::table::MOST_ROUTERS;
use std::fmt;
use std::num::ParseIntError;
use std::str::{self, SplitWhitespace, Utf8Error};

/// The longest buffer that a script may ask for.
pub const MOST_BUFFER: usize = 65_536;

#[derive(Clone, Debug, PartialEq, Eq)]
pub enum Call {
    Load(String),
    Inject(u32),
    Withdraw(u32),
    Restart(u32),
    /// The routers as a set.
    Step(u32),
    Settle,
    Reopen,
    Best(u32),
    Metric(u32),
    Known(u32),
    Advertised(u32),
    Injected,
    IsSettled,
    /// From this router, into a buffer of so many bytes.
    Trace(u32, usize),
    /// Into a buffer of so many bytes.
    List(usize),
}

/// Why a line ends the run.
#[derive(Clone, Debug, PartialEq, Eq)]
pub enum Bad {
    NoText(Utf8Error),
    /// The first word names no call.
    NoCall(String),
    /// The call that wants one more word.
    TooFew(String),
    /// The first word that is too many.
    TooMany(String),
    NoNumber(String, ParseIntError),
    PastTheLast(u32),
    /// A buffer of so many bytes.
    TooLong(u32),
    Unread(String, String),
    /// Which call, and whether the network is running.
    OutOfPlace(Call, bool),
}

/// The call of a line; none where no word is in it.
pub fn call(line: &[u8]) -> Result<Option<Call>, Bad> {
    let code = line.split(|byte| *byte == b'#').next().unwrap_or_default();
    let mut words = str::from_utf8(code)
        .map_err(Bad::NoText)?
        .split_whitespace();
    let name = match words.next() {
        None => return Ok(None),
        Some(name) => name,
    };
    let words = &mut words;
    let call = match name {
        "load" => Call::Load(word(name, words)?.into()),
        "inject" => Call::Inject(numbered(name, words)?),
        "withdraw" => Call::Withdraw(numbered(name, words)?),
        "restart" => Call::Restart(numbered(name, words)?),
        "step" => Call::Step(set(words)?),
        "settle" => Call::Settle,
        "reopen" => Call::Reopen,
        "best" => Call::Best(numbered(name, words)?),
        "metric" => Call::Metric(numbered(name, words)?),
        "known" => Call::Known(numbered(name, words)?),
        "advertised" => Call::Advertised(numbered(name, words)?),
        "injected" => Call::Injected,
        "settled" => Call::IsSettled,
        "trace" => Call::Trace(numbered(name, words)?, length(TRACE_BUFFER, words)?),
        "list" => Call::List(length(LIST_BUFFER, words)?),
        _ => return Err(Bad::NoCall(name.into())),
    };
    match words.next() {
        None => Ok(Some(call)),
        Some(word) => Err(Bad::TooMany(word.into())),
    }
}

/// The first word of every call.
pub const NAMES: [&str; 15] = [
    "load",
    "inject",
    "withdraw",
    "restart",
    "step",
    "settle",
    "reopen",
    "best",
    "metric",
    "known",
    "advertised",
    "injected",
    "settled",
    "trace",
    "list",
];

/// The word behind a call.
fn word<'a>(name: &str, words: &mut SplitWhitespace<'a>) -> Result<&'a str, Bad> {
    words.next().ok_or_else(|| Bad::TooFew(name.into()))
}

/// The number behind a call.
fn numbered(name: &str, words: &mut SplitWhitespace) -> Result<u32, Bad> {
    number(word(name, words)?)
}

fn number(word: &str) -> Result<u32, Bad> {
    word.parse().map_err(|why| Bad::NoNumber(word.into(), why))
}

/// The length of a buffer, where one is given.
fn length(otherwise: usize, words: &mut SplitWhitespace) -> Result<usize, Bad> {
    let bytes = match words.next() {
        None => return Ok(otherwise),
        Some(word) => number(word)?,
    };
    match bytes as usize {
        length if length <= MOST_BUFFER => Ok(length),
        _ => Err(Bad::TooLong(bytes)),
    }
}

fn set(words: &mut SplitWhitespace) -> Result<u32, Bad> {
    words.try_fold(0, |set, word| {
        let router = number(word)?;
        if router < MOST_ROUTERS as u32 {
            Ok(set | 1 << router)
        } else {
            Err(Bad::PastTheLast(router))
        }
    })
}

/// As it was understood: routers of a step once each, in rising order, and the length of a buffer
/// where it is another than the least that suffices.
impl fmt::Display for Call {
    fn fmt(&self, out: &mut fmt::Formatter) -> fmt::Result {
        match self {
            Call::Load(file) => write!(out, "load {file}"),
            Call::Inject(path) => write!(out, "inject {path}"),
            Call::Withdraw(path) => write!(out, "withdraw {path}"),
            Call::Restart(router) => write!(out, "restart {router}"),
            Call::Step(routers) => {
                write!(out, "step")?;
                members(*routers as u64).try_for_each(|router| write!(out, " {router}"))
            }
            Call::Settle => write!(out, "settle"),
            Call::Reopen => write!(out, "reopen"),
            Call::Best(router) => write!(out, "best {router}"),
            Call::Metric(router) => write!(out, "metric {router}"),
            Call::Known(router) => write!(out, "known {router}"),
            Call::Advertised(router) => write!(out, "advertised {router}"),
            Call::Injected => write!(out, "injected"),
            Call::IsSettled => write!(out, "settled"),
            Call::Trace(router, TRACE_BUFFER) => write!(out, "trace {router}"),
            Call::Trace(router, length) => write!(out, "trace {router} {length}"),
            Call::List(LIST_BUFFER) => write!(out, "list"),
            Call::List(length) => write!(out, "list {length}"),
        }
    }
}

impl fmt::Display for Bad {
    fn fmt(&self, out: &mut fmt::Formatter) -> fmt::Result {
        match self {
            Bad::NoText(why) => write!(out, "the line is no text in UTF-8: {why}"),
            Bad::NoCall(name) => write!(out, "`{name}` is no call"),
            Bad::TooFew(name) => write!(out, "`{name}` wants a word behind it"),
            Bad::TooMany(word) => write!(out, "`{word}` is one word too many"),
            Bad::NoNumber(word, why) => write!(out, "`{word}` is no number of 32 bits: {why}"),
            Bad::PastTheLast(router) => write!(out, "no table declares router {router}"),
            Bad::TooLong(bytes) => write!(
                out,
                "a buffer of {bytes} bytes is more than the {MOST_BUFFER} of a script"
            ),
            Bad::Unread(file, why) => write!(out, "`{file}` cannot be read: {why}"),
            Bad::OutOfPlace(call, running) => {
                let (is, wants) = match running {
                    true => ("running", "settle"),
                    false => ("settled", "reopen"),
                };
                write!(
                    out,
                    "`{call}` is out of place: the network is {is}, and wants `{wants}` first"
                )
            }
        }
    }
}

#[cfg(test)]
mod tests {
    use super::*;

    #[test]
    fn lines() {
        let read = |line: &str| call(line.as_bytes()).unwrap().map(|call| call.to_string());
        assert_eq!(read("step 5 0  2 5").unwrap(), "step 0 2 5");
        assert_eq!(read("  step # 1").unwrap(), "step");
        assert_eq!(read("inject 007#8").unwrap(), "inject 7");
        assert_eq!(read("best 4294967295").unwrap(), "best 4294967295");
        assert_eq!(
            read("load tables/a-1.table ").unwrap(),
            "load tables/a-1.table"
        );
        assert_eq!(read("trace 3").unwrap(), "trace 3");
        assert_eq!(read("trace 3 032").unwrap(), "trace 3");
        assert_eq!(read("trace 32 3").unwrap(), "trace 32 3");
        assert_eq!(read("trace 3 65536").unwrap(), "trace 3 65536");
        assert_eq!(read("list").unwrap(), "list");
        assert_eq!(read("list 512").unwrap(), "list");
        assert_eq!(read("list 0 # 512").unwrap(), "list 0");
        assert_eq!(read("known 00").unwrap(), "known 0");
        for line in ["metric 4", "advertised 31", "injected", "settled"] {
            assert_eq!(read(line).unwrap(), line);
        }
        assert_eq!(
            [read(""), read("   "), read(" # settle")],
            [None, None, None]
        );
    }

    #[test]
    fn bad_lines() {
        let bad = |line: &[u8]| call(line).unwrap_err().to_string();
        for (line, message) in [
            ("stop", "`stop` is no call"),
            ("lists", "`lists` is no call"),
            ("Settle 1", "`Settle` is no call"),
            ("settle  now", "`now` is one word too many"),
            ("load # a.table", "`load` wants a word behind it"),
            ("known", "`known` wants a word behind it"),
            ("inject 1 2", "`2` is one word too many"),
            ("injected 1", "`1` is one word too many"),
            ("list 1 2 3", "`2` is one word too many"),
            ("trace 1 2 3 x", "`3` is one word too many"),
            (
                "inject -1",
                "`-1` is no number of 32 bits: invalid digit found in string",
            ),
            (
                "step 1 x 32",
                "`x` is no number of 32 bits: invalid digit found in string",
            ),
            ("step 1 32 x", "no table declares router 32"),
            (
                "best 4294967296",
                "`4294967296` is no number of 32 bits: number too large to fit in target type",
            ),
            (
                "trace 0 70000",
                "a buffer of 70000 bytes is more than the 65536 of a script",
            ),
            (
                "list 65537",
                "a buffer of 65537 bytes is more than the 65536 of a script",
            ),
            (
                "list 4294967296",
                "`4294967296` is no number of 32 bits: number too large to fit in target type",
            ),
        ] {
            assert_eq!(bad(line.as_bytes()), message);
        }
        let message = "the line is no text in UTF-8: ";
        assert!(bad(b"best \xe9 # all of it").starts_with(message));
        assert_eq!(call(b"settle # \xe9"), Ok(Some(Call::Settle)));
    }
}
