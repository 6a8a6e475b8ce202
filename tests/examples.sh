#!/usr/bin/env bash
# Runs the programs `settle` on the tables of examples/, interpreted and compiled, and `replay` on the scripts, compiled, and
# holds what they print to the file beside each. The gate itself runs the built programs on what stands in their crates, so
# that is only compared.
set -euo pipefail
cd "$(dirname "$0")/.."

cmp examples/two-clusters.table crates/settle/stdin
cmp examples/two-clusters.out crates/settle/stdout
cmp examples/hub.script crates/replay/stdin
cmp examples/hub.replayed crates/replay/stdout
cmp examples/hub.table crates/replay/data/hub.table

room=$(mktemp -d)
trap 'rm -rf "$room"' EXIT

# The program, what its examples end in, what must be printed of them, and the files that they load.
plays() {
    local program=$1 given=$2 printed=$3 example
    shift 3
    mkdir "$room/$program"
    for example in examples/*."$given"; do
        cp "$example" "$room/$program/"
        cp "${example%."$given"}.$printed" "$room/$program/$(basename "$example").stdout"
    done
    (cd "crates/$program" && rt try --cases "$room/$program" "$@")
}

plays settle table out
tables=()
for table in examples/*.table; do
    tables+=(--data "$(basename "$table")=$PWD/$table")
done
plays replay script replayed "${tables[@]}"
