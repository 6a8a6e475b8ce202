//! The pages of docs/ once more, in plain Rust: written from the pages alone and sharing no code
//! with the library, so that the two can be compared.

pub mod case;
pub mod cases;
pub mod counts;
pub mod damage;
pub mod direct;
pub mod distances;
pub mod encode;
pub mod forwarding;
pub mod laws;
pub mod lines;
pub mod many;
pub mod nearest;
pub mod network;
pub mod passing;
pub mod phase;
pub mod program;
pub mod promised;
pub mod random;
pub mod refusals;
pub mod replay;
pub mod rules;
pub mod script;
pub mod script_counts;
pub mod scripts;
pub mod sets;
pub mod shapes;
pub mod spelling;
pub mod table;
pub mod tables;
pub mod ways;
pub mod writer;
