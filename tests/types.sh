#!/usr/bin/env bash
# Holds that the types refuse misuses of a network, with no prover asked: that a running one is traced or listed, by a call of its own
# or by what such a call does below; that a settled one is altered, and then traced by a path that is withdrawn, or opened to reach
# the running one in it; that one is used which was settled or reopened; and that one is made which is neither. The same program
# without them runs.
set -euo pipefail
cd "$(dirname "$0")/.."

room=$(mktemp -d)
trap 'rm -rf "$room"' EXIT
mkdir "$room/.git"
tar -cf - --exclude=out --exclude=target crates crates.txt | tar -xf - -C "$room"
cd "$room"
echo 'misuse: network reflectors rules' >> crates.txt
mkdir -p crates/misuse/src
cd crates/misuse

cat > control <<'PROGRAM'
#![tactic(auto)]

use reflectors::Running;
use rules::FiveStage;
// and another

fn main() {
    let mut bytes = [0; 512];
    let mut running = Running::new(FiveStage);
    let _ = running.inject(0);
    let _ = running.inject(1);
    // while it runs
    let settled = running.settle();
    let _ = settled.trace(0, &mut bytes);
    // once it is settled
    let mut reopened = settled.reopen();
    let _ = reopened.withdraw(0);
    // once it is reopened
}
PROGRAM

cp control src/main.rt
rt try > said 2>&1 || { cat said; echo "the program without a misuse is refused" >&2; exit 1; }
echo "the program without a misuse runs"

# The comment that a misuse stands for, the misuse, and the one error that is wanted.
refused() {
    sed "s|// $1|$2|" control > src/main.rt
    if rt try > said 2>&1; then
        echo "this is not refused: $2" >&2
        exit 1
    fi
    if [ "$(grep -c 'error' said)" != 1 ] || ! grep -qF "$3" said; then
        cat said
        echo "this is refused otherwise: $2" >&2
        exit 1
    fi
    echo "refused: $3"
}

refused 'and another' 'use network::Network;' \
    'error[unknown-name]: unresolved import: there is no `Network` in crate `network`'
refused 'while it runs' 'let _ = running.trace(0, \&mut bytes);' \
    'error[unknown-method]: no method named `trace` found for type `Running<FiveStage>`'
refused 'while it runs' 'let _ = running.list(\&mut bytes);' \
    'error[unknown-method]: no method named `list` found for type `Running<FiveStage>`'
refused 'while it runs' 'let _ = running.way_from(0, \&mut bytes);' 'error[private-item]: method `way_from` is private'
refused 'while it runs' 'let _ = running.lines(\&mut bytes);' 'error[private-item]: method `lines` is private'
refused 'once it is settled' 'let _ = settled.inject(0);' \
    'error[unknown-method]: no method named `inject` found for type `Settled<FiveStage>`'
refused 'once it is settled' 'let _ = settled.withdraw(0); let _ = settled.trace(0, \&mut bytes);' \
    'error[unknown-method]: no method named `withdraw` found for type `Settled<FiveStage>`'
refused 'once it is settled' 'let _ = settled.running.injected();' \
    'error[private-field]: field `running` of struct `Settled` is private'
refused 'once it is settled' 'let _ = running.inject(0);' 'error[borrow-e0382]: borrow of moved value: `running`'
refused 'once it is reopened' 'let _ = settled.trace(0, \&mut bytes);' \
    'error[borrow-e0382]: borrow of moved value: `settled`'
