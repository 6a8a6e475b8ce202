#!/usr/bin/env bash
# Runs the built program `replay`, or the one that is named, on each script of examples/, and on scripts that end early, and holds
# what it prints and what it complains of to what they must be.
set -euo pipefail
replay=$(realpath "${1:-$(dirname "$0")/../../crates/replay/out/replay}")
cd "$(dirname "$0")/../../examples"

room=$(mktemp -d)
trap 'rm -rf "$room"' EXIT

for script in *.script; do
    echo "$script"
    "$replay" < "$script" > "$room/printed"
    diff "${script%.script}.replayed" "$room/printed"
done

# A script, what it prints, its exit status, and what it complains of.
plays() {
    local status=0
    printf '%b' "$1" | "$replay" > "$room/printed" 2> "$room/said" || status=$?
    diff <(printf '%b' "$2") "$room/printed"
    diff <(printf '%b' "${4-}") "$room/said"
    [ "$status" = "$3" ] || { echo "it ended with status $status, and not $3" >&2; return 1; }
}

# A script of which a line ends the run, what it prints before, and the complaint.
ends() {
    echo "$3"
    plays "$1" "$2" 1 "replay: $3\n"
}

echo "scripts of no call"
plays '' '' 0
plays '\n   \n# nothing\n  # at all' '' 0

echo "a network that is settled while it runs has a list"
plays 'load no-exits.table\n' 'load no-exits.table: done; nothing altered; settled\nR0 - -\nR1 - -\n' 0
echo "and one that is not settled has none"
plays 'load two-clusters.table\ninject 1' \
    'load two-clusters.table: done; nothing altered; settled\ninject 1: done; R3 {1}; not settled\n' 0

echo "every refusal of a table"
same='nothing altered; settled\n'
router='\x01\x00\x01' client='\x01\x00\x00' link='\x02\x00\x01\x00\x01'
routers=
for _ in {0..32}; do routers+=$router; done
# The bytes of a table, the refusal, its layer, and its sentence.
is_refused() {
    printf '%b' "$1" > "$room/table"
    plays "load $room/table" "load $room/table: refused with $2 by the $3 layer: $4; $same" 0
}
is_refused '\x07' '1 at 0' record 'byte 0: the kind of the record is unknown'
is_refused "$router\x00" '1 at 3' record 'byte 3: the kind of the record is unknown'
is_refused "$router\x01\x00" '2 at 3' record 'byte 3: the bytes end inside the record'
is_refused "$router$client$link$client" '3 at 11' record \
    'byte 11: the kind of the record is lower than that of the one before'
is_refused "$routers" '4 at 96' table 'byte 96: the record is one more than the most of its kind'
is_refused "$router$client\x02\x00\x01\x00\x00" '5 at 6' table \
    'byte 6: a field of the record is out of range or names a router that no earlier record declares'
is_refused "$router$client$link\x02\x01\x00\x00\x01" '6 at 11' table \
    'byte 11: the record joins a router to itself, or two routers that an earlier one of its kind joins'
is_refused "$router$client$link\x03\x00\x01" '7 at 11' table \
    'byte 11: the session joins two routers that are not both clients of the same cluster'
is_refused '' '8 at 0' graph 'byte 0: there is no router'
is_refused "$router\x01\x01\x00$link" '9 at 3' graph 'byte 3: the cluster of this client has no reflector'
is_refused "$router$router$client$link" '10 at 6' graph 'byte 6: no chain of links joins this router to router 0'

echo "every refusal of a call"
loaded='load two-clusters.table: done; nothing altered; settled\n'
no_router() {
    echo "refused with 12 at $1 by the call layer: router $1 is not declared"
}
no_path() {
    echo "refused with 11 at $1 by the call layer: path $1 is not declared"
}
too_short() {
    echo "refused with 16 at $1 by the call layer: the buffer is shorter than $1 bytes"
}
plays 'load cut-off.table\nload cut-short.table\nload oscillation.script\n' \
    "load cut-off.table: refused with 10 at 9 by the graph layer: byte 9: no chain of links joins this router to router 0; ${same}\
load cut-short.table: refused with 2 at 69 by the record layer: byte 69: the bytes end inside the record; ${same}\
load oscillation.script: refused with 1 at 0 by the record layer: byte 0: the kind of the record is unknown; $same" 0
plays 'inject 0\nwithdraw 0\nrestart 0\nstep 31 0\nstep\nbest 0\nmetric 0\nknown 0\nadvertised 0' \
    "inject 0: $(no_path 0); ${same}\
withdraw 0: $(no_path 0); ${same}\
restart 0: $(no_router 0); ${same}\
step 0 31: $(no_router 0); ${same}\
step: refused with 13 at 0 by the call layer: no router is named; ${same}\
best 0: $(no_router 0); ${same}\
metric 0: $(no_router 0); ${same}\
known 0: $(no_router 0); ${same}\
advertised 0: $(no_router 0); $same" 0
plays 'settle\nbest 0\nmetric 0\nknown 0\nadvertised 0\ntrace 0\ntrace 0 31\nlist 511\nlist 0' \
    "settle: done; ${same}\
best 0: $(no_router 0); ${same}\
metric 0: $(no_router 0); ${same}\
known 0: $(no_router 0); ${same}\
advertised 0: $(no_router 0); ${same}\
trace 0: $(no_router 0); ${same}\
trace 0 31: $(no_router 0); ${same}\
list 511: $(too_short 512); ${same}\
list 0: $(too_short 512); $same" 0
plays 'load two-clusters.table\ninject 3\ninject 4294967295\nwithdraw 2\nwithdraw 64\nrestart 4\nstep 3 9 3 7 0\nbest 4
metric 32\nknown 4294967295\nadvertised 10\nload cut-off.table\ninject 2\ninject 2\nmetric 4\nknown 4\nadvertised 4' \
    "${loaded}inject 3: $(no_path 3); ${same}\
inject 4294967295: $(no_path 4294967295); ${same}\
withdraw 2: refused with 15 at 2 by the call layer: path 2 is not injected; ${same}\
withdraw 64: $(no_path 64); ${same}\
restart 4: $(no_router 4); ${same}\
step 0 3 7 9: $(no_router 7); ${same}\
best 4: $(no_router 4); ${same}\
metric 32: $(no_router 32); ${same}\
known 4294967295: $(no_router 4294967295); ${same}\
advertised 10: $(no_router 10); ${same}\
load cut-off.table: refused with 10 at 9 by the graph layer: byte 9: no chain of links joins this router to router 0; ${same}\
inject 2: done; R1 {2}; not settled\n\
inject 2: refused with 14 at 2 by the call layer: path 2 is injected already; nothing altered; not settled\n\
metric 4: $(no_router 4); nothing altered; not settled\n\
known 4: $(no_router 4); nothing altered; not settled\n\
advertised 4: $(no_router 4); nothing altered; not settled\n" 0
plays 'load two-clusters.table\nsettle\ntrace 4 40\ntrace 4 31\ntrace 0 31\ntrace 3 0\ntrace 0 20\nlist 511\nlist 31\nbest 4' \
    "${loaded}settle: done; ${same}\
trace 4 40: $(no_router 4); ${same}\
trace 4 31: $(no_router 4); ${same}\
trace 0 31: $(too_short 32); ${same}\
trace 3 0: $(too_short 32); ${same}\
trace 0 20: $(too_short 32); ${same}\
list 511: $(too_short 512); ${same}\
list 31: $(too_short 512); ${same}\
best 4: $(no_router 4); ${same}R0 - -\nR1 - -\nR2 - -\nR3 - -\n" 0

echo "every question, of a running network and of a settled one"
plays 'settled\ninjected\nsettle\nlist\ninjected\nsettled' \
    "settled: yes; ${same}injected: {}; ${same}settle: done; ${same}list: no router; ${same}injected: {}; ${same}settled: yes; $same" 0
plays 'load two-clusters.table\ninject 0\ninject 1\ninject 2\nstep 0\nknown 0\nadvertised 0\nknown 3\nadvertised 3\nknown 2
best 0\nmetric 0\nmetric 1\nmetric 2\ninjected\nsettled\nstep 2\nknown 2\nadvertised 2\nmetric 2' \
    "${loaded}inject 0: done; R1 {0}; not settled\n\
inject 1: done; R3 {1}; not settled\n\
inject 2: done; R1 {0 2}; not settled\n\
step 0: done; R0 {0 2}; not settled\n\
known 0: {0 2}; nothing altered; not settled\n\
advertised 0: {0 2}; nothing altered; not settled\n\
known 3: {1}; nothing altered; not settled\n\
advertised 3: {1}; nothing altered; not settled\n\
known 2: {}; nothing altered; not settled\n\
best 0: P0; nothing altered; not settled\n\
metric 0: 10; nothing altered; not settled\n\
metric 1: 0; nothing altered; not settled\n\
metric 2: none; nothing altered; not settled\n\
injected: {0 1 2}; nothing altered; not settled\n\
settled: no; nothing altered; not settled\n\
step 2: done; R2 {1 2}; not settled\n\
known 2: {0 1 2}; nothing altered; not settled\n\
advertised 2: {1 2}; nothing altered; not settled\n\
metric 2: 4; nothing altered; not settled\n" 0
plays 'load two-clusters.table\ninject 0\ninject 1\ninject 2\nsettle\nknown 1\nadvertised 1\nbest 1\nmetric 1\ninjected\nsettled\nlist
trace 0\ntrace 0 32\ntrace 0 33\ntrace 1 65536\nlist 512\nlist 513\nlist 65536\nreopen\nsettled\nmetric 0' \
    "${loaded}inject 0: done; R1 {0}; not settled\n\
inject 1: done; R3 {1}; not settled\n\
inject 2: done; R1 {0 2}; not settled\n\
settle: done; R0 {1 2}, R1 {1 2}, R2 {1 2}, R3 {1 2}; settled\n\
known 1: {0 1 2}; ${same}\
advertised 1: {1 2}; ${same}\
best 1: P2; ${same}\
metric 1: 3; ${same}\
injected: {0 1 2}; ${same}\
settled: yes; ${same}\
list: R0 P1 5, R1 P2 3, R2 P1 4, R3 P1 0; ${same}\
trace 0: R0 R2 R3, leaves by P1; ${same}\
trace 0: R0 R2 R3, leaves by P1; ${same}\
trace 0 33: R0 R2 R3, leaves by P1; ${same}\
trace 1 65536: R1, leaves by P2; ${same}\
list: R0 P1 5, R1 P2 3, R2 P1 4, R3 P1 0; ${same}\
list 513: R0 P1 5, R1 P2 3, R2 P1 4, R3 P1 0; ${same}\
list 65536: R0 P1 5, R1 P2 3, R2 P1 4, R3 P1 0; ${same}\
reopen: done; ${same}\
settled: yes; ${same}\
metric 0: 5; ${same}\
R0 P1 5\nR1 P2 3\nR2 P1 4\nR3 P1 0\n" 0

echo "the last router and the last path"
row='load long-row.table: done; nothing altered; settled\n'
plays 'load long-row.table\ninject 64\ninject 63\nknown 31\nadvertised 31\nbest 31\nmetric 31\nrestart 32\nrestart 31\nstep 31 30
injected\nwithdraw 63\nrestart 31\nbest 31\nstep 30\nwithdraw 63' \
    "${row}inject 64: $(no_path 64); ${same}\
inject 63: done; R31 {63}; not settled\n\
known 31: {63}; nothing altered; not settled\n\
advertised 31: {63}; nothing altered; not settled\n\
best 31: P63; nothing altered; not settled\n\
metric 31: 65535; nothing altered; not settled\n\
restart 32: $(no_router 32); nothing altered; not settled\n\
restart 31: done; nothing altered; not settled\n\
step 30 31: done; R30 {63}; not settled\n\
injected: {63}; nothing altered; not settled\n\
withdraw 63: done; R31 {}; not settled\n\
restart 31: done; nothing altered; not settled\n\
best 31: none; nothing altered; not settled\n\
step 30: done; R30 {}; settled\n\
withdraw 63: refused with 15 at 63 by the call layer: path 63 is not injected; ${same}\
$(for router in {0..31}; do echo "R$router - -"; done)\n" 0
all="$(for path in {0..63}; do echo "inject $path"; done)"
plays "load long-row.table\n$all\nstep 31\nreopen" \
    "$row$(
        for path in {0..63}; do
            router=$((path / 2))
            [ $((path % 2)) = 0 ] && sets="{$path}" || sets="{$((path - 1)) $path}"
            echo "inject $path: done; R$router $sets; not settled"
        done
    )\nstep 31: done; R31 {0 1 $(seq -s ' ' 32 63)}; not settled\n" 1 \
    'replay: line 67: `reopen` is out of place: the network is running, and wants `settle` first\n'

echo "a settled network is loaded anew once it is open, and no way leads out of one without a path"
plays 'load oscillation.table\ninject 0\nsettle\ntrace 3\nreopen\nload no-exits.table\nsettle\nbest 1\ntrace 1' \
    'load oscillation.table: done; nothing altered; settled
inject 0: done; R1 {0}; not settled
settle: done; R0 {0}, R2 {0}, R3 {0}; settled
trace 3: R3 R0 R1, leaves by P0; nothing altered; settled
reopen: done; nothing altered; settled
load no-exits.table: done; R0 {}, R1 {}, R2 {}, R3 {}; settled
settle: done; nothing altered; settled
best 1: none; nothing altered; settled
trace 1: none; nothing altered; settled
R0 - -
R1 - -
' 0

echo "spaces, comments and numbers as they come"
plays '  load   no-exits.table#x\n\tstep 1 000 1 # 2\r\n' \
    "load no-exits.table: done; ${same}step 0 1: done; ${same}R0 - -\nR1 - -\n" 0

echo "every complaint"
for call in stop lists Inject SETTLE 7 'inject,0'; do
    ends "$call" '' "line 1: \`$call\` is no call"
done
ends '# a table\n\nload two-clusters.table\n  stop it # now\ninject 0' "$loaded" 'line 4: `stop` is no call'
for call in load inject withdraw restart best metric known advertised trace; do
    ends "settled\n$call # 1" "settled: yes; $same" "line 2: \`$call\` wants a word behind it"
done
for call in 'load no-exits.table' 'inject 0' 'withdraw 0' 'restart 0' settle reopen 'best 0' 'metric 0' 'known 0' 'advertised 0' \
    injected settled 'trace 0 32' 'list 512'; do
    ends "$call 1 more" '' 'line 1: `1` is one word too many'
done
ends 'load two-clusters.table no-exits.table' '' 'line 1: `no-exits.table` is one word too many'
digit='invalid digit found in string' large='number too large to fit in target type'
for call in inject withdraw restart 'step 0' best metric known advertised trace 'trace 0' list; do
    ends "load two-clusters.table\n$call 0x1" "$loaded" "line 2: \`0x1\` is no number of 32 bits: $digit"
    ends "$call -1" '' "line 1: \`-1\` is no number of 32 bits: $digit"
    ends "$call 4294967296" '' "line 1: \`4294967296\` is no number of 32 bits: $large"
done
ends 'step 31 32' '' 'line 1: no table declares router 32'
ends 'step 4294967295 0' '' 'line 1: no table declares router 4294967295'
for length in 65537 70000 4294967295; do
    for call in list 'trace 0' 'trace 31'; do
        ends "settle\n\n$call $length" "settle: done; $same" \
            "line 3: a buffer of $length bytes is more than the 65536 of a script"
    done
done
ends 'load two-clusters.table\n\nload nowhere.table\nstop' "$loaded" \
    'line 3: `nowhere.table` cannot be read: No such file or directory (os error 2)'
ends 'load .' '' 'line 1: `.` cannot be read: Is a directory (os error 21)'
ends 'settle\nload nowhere.table' "settle: done; $same" \
    'line 2: `nowhere.table` cannot be read: No such file or directory (os error 2)'
ends 'load nowhere.table 1' '' 'line 1: `1` is one word too many'
ends 'settle # \xe9\nbest \xe9' "settle: done; $same" \
    'line 2: the line is no text in UTF-8: incomplete utf-8 byte sequence from index 5'
ends 'best \xff 0' '' 'line 1: the line is no text in UTF-8: invalid utf-8 sequence of 1 bytes from index 5'

echo "calls out of place"
for call in reopen 'trace 0' 'trace 0 20' 'trace 31 65536' list 'list 511'; do
    ends "load two-clusters.table\n$call\nstop" "$loaded" \
        "line 2: \`$call\` is out of place: the network is running, and wants \`settle\` first"
done
ends 'trace 00 032' '' 'line 1: `trace 0` is out of place: the network is running, and wants `settle` first'
ends 'list 512' '' 'line 1: `list` is out of place: the network is running, and wants `settle` first'
for call in 'load no-exits.table' 'inject 0' 'withdraw 0' 'restart 0' 'step 0 3' settle; do
    ends "load two-clusters.table\nsettle\nbest 1\n\n$call\nstop" \
        "${loaded}settle: done; ${same}best 1: none; $same" \
        "line 5: \`$call\` is out of place: the network is settled, and wants \`reopen\` first"
done

echo "line numbers of two digits and more"
for line in 9 10 12 99 100 255 256 257 1000; do
    before=$(printf '\\n%.0s' $(seq 2 $line))
    ends "${before}stop" '' "line $line: \`stop\` is no call"
    ends "${before}reopen" '' "line $line: \`reopen\` is out of place: the network is running, and wants \`settle\` first"
done
