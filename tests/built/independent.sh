#!/usr/bin/env bash
# Compares the static library and the programs `settle`, `cases` and `replay` with an implementation in plain Rust that is
# written from the pages of docs/ alone, over random tables and random scripts.
set -euo pipefail
cd "$(dirname "$0")/../independent"

export REFLECTORS_LIB="$PWD/../../crates/reflectors_c/out"
export REFLECTORS_SETTLE="$PWD/../../crates/settle/out/settle"
export REFLECTORS_CASES="$PWD/../../crates/cases/out/cases"
export REFLECTORS_REPLAY="$PWD/../../crates/replay/out/replay"
cargo test --offline --quiet
cargo run --offline --quiet --release --bin compare 20000
cargo run --offline --quiet --release --bin scripts 1000
