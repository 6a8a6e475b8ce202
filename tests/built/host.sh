#!/usr/bin/env bash
# Builds the host in C over the static library, without a warning, and holds what it prints to the transcript in
# examples/host.out. Holds the numbers of the header to what the library answers, in C and in C++.
set -euo pipefail
cd "$(dirname "$0")/../../examples"

library=../crates/reflectors_c/out/libreflectors_c.a
built=$(mktemp -d)
trap 'rm -rf "$built"' EXIT
strict=(-Wall -Wextra -Wpedantic -Werror -O2 -I ../include)
cc -std=c11 "${strict[@]}" host.c "$library" -o "$built/host"
cc -std=c11 "${strict[@]}" ../tests/host/refusals.c "$library" -o "$built/in-c"
c++ -std=c++11 "${strict[@]}" -x c++ ../tests/host/refusals.c -x none "$library" -o "$built/in-c++"
"$built/in-c"
"$built/in-c++"

# Each line of the transcript that begins with a dollar sign is a command.
while read -r command; do
    echo "$ $command"
    status=0
    PATH="$built:$PATH" bash -c "$command" || status=$?
    [ "$status" = 0 ] || echo "(status $status)"
done < <(sed -n 's/^\$ //p' host.out) > "$built/printed"
diff host.out "$built/printed"
