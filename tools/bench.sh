#!/usr/bin/env bash
# Times the library beside the implementation in plain Rust, on the same tables in one run: the call for a host, and the calls of a
# network. Both are compiled for x86-64-v2, as the toolchain compiles the library.
set -euo pipefail
cd "$(dirname "$0")/.."

(cd crates/reflectors_c && rt lib)
(cd crates/timing && rt run < ../../examples/two-clusters.table > /dev/null)
cd tests/independent
export REFLECTORS_LIB="$PWD/../../crates/reflectors_c/out"
export RUSTFLAGS="-C target-cpu=x86-64-v2"
cargo run --offline --quiet --release --bin bench
echo
cargo run --offline --quiet --release --bin bench_network ../../crates/timing/out/timing
