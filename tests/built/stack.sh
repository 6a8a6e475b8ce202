#!/usr/bin/env bash
# Holds that the direct call needs no more stack than docs/HOST.md and the header say: makes it with exactly so much left, where
# the dynamic linker binds memcpy at once and where it binds it at the first call, which needs stack too. And that this would
# show: with a third of that the same call ends in a fault.
set -euo pipefail
cd "$(dirname "$0")/../.."

claimed=$((48 * 1024))
grep -q '48 KiB of stack' docs/HOST.md && grep -q '48 KiB of stack' include/reflectors.h ||
    { echo "docs/HOST.md and include/reflectors.h do not say what is tested" >&2; exit 1; }

library=crates/reflectors_c/out/libreflectors_c.a
built=$(mktemp -d)
trap 'rm -rf "$built"' EXIT
for binding in now lazy; do
    cc -std=c11 -Wall -Wextra -Wpedantic -Werror -O2 -I include "-Wl,-z,$binding" tests/host/stack.c "$library" -o "$built/$binding"
    printf '%s: ' "$binding"
    env -u LD_BIND_NOW "$built/$binding" "$claimed" || { echo "the call needs more than $claimed bytes of stack" >&2; exit 1; }
    status=0
    # (the shell tells of a fault in words, which are not for the reader of the gate)
    { env -u LD_BIND_NOW "$built/$binding" $((claimed / 3)); } > /dev/null 2>&1 || status=$?
    [ "$status" = 139 ] || { echo "with $((claimed / 3)) bytes the call ended with status $status, and in no fault" >&2; exit 1; }
done
