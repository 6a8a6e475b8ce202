//! The refusals by number, and how a refusal is worded (docs/REFUSALS.md).

use crate::table::Refusal;

pub const UNDECLARED_PATH: u8 = 11;
pub const UNDECLARED_ROUTER: u8 = 12;
pub const NO_ROUTER_NAMED: u8 = 13;
pub const ALREADY_INJECTED: u8 = 14;
pub const NOT_INJECTED: u8 = 15;
pub const SHORT_BUFFER: u8 = 16;

/// A name for each number, for counts.
pub const NAMES: [&str; 17] = [
    "",
    "unknown kind",
    "cut short",
    "kind falls",
    "too many",
    "out of range",
    "bad pair",
    "bad session",
    "no router",
    "no reflector",
    "not joined",
    "undeclared path",
    "undeclared router",
    "no router named",
    "already injected",
    "not injected",
    "short buffer",
];

pub fn refuse<T>(number: u8, place: usize) -> Result<T, Refusal> {
    Err(Refusal { number, place })
}

pub fn layer(number: u8) -> &'static str {
    match number {
        1..=3 => "record",
        4..=7 => "table",
        8..=10 => "graph",
        _ => "call",
    }
}

/// The sentence of a refusal, as in the page's list. Of a table it begins with the byte.
pub fn words(refusal: Refusal) -> String {
    let Refusal { number, place } = refusal;
    match number {
        UNDECLARED_PATH => format!("path {place} is not declared"),
        UNDECLARED_ROUTER => format!("router {place} is not declared"),
        NO_ROUTER_NAMED => "no router is named".into(),
        ALREADY_INJECTED => format!("path {place} is injected already"),
        NOT_INJECTED => format!("path {place} is not injected"),
        SHORT_BUFFER => format!("the buffer is shorter than {place} bytes"),
        _ => format!("byte {place}: {}", OF_TABLES[number as usize - 1]),
    }
}

/// The sentences of the refusals of a table, from number 1 on.
const OF_TABLES: [&str; 10] = [
    // records
    "the kind of the record is unknown",
    "the bytes end inside the record",
    "the kind of the record is lower than that of the one before",
    // the table
    "the record is one more than the most of its kind",
    "a field of the record is out of range or names a router that no earlier record declares",
    "the record joins a router to itself, or two routers that an earlier one of its kind joins",
    "the session joins two routers that are not both clients of the same cluster",
    // its routers and links
    "there is no router",
    "the cluster of this client has no reflector",
    "no chain of links joins this router to router 0",
];
