#!/usr/bin/env bash
# Prints what `covd session` takes for eight uploads of 8 MiB beside a plain program that copies and hashes the same bytes
# (plain.rs), and how many Coverage requests it answers in a second. Needs rt, rustc and python3; COVD names a built covd in
# place of the one of this checkout. Run it on a machine with nothing else to do.
cd "$(dirname "$0")"
source ../common.sh

if [ -n "${COVD:-}" ]; then ours=$COVD; else build_ours covd --version; fi
build_plain plain.rs
python3 -B requests.py "$room"
design=../../crates/covd/data/design.sv

# The least nanoseconds of five runs of a program over a file of requests.
over() {
    local requests=$1
    shift
    least 5 sh -c 'requests=$1; shift; exec "$@" <"$requests"' sh "$requests" "$@"
}

took=$(over "$room/uploads" "$ours" session "$design")
[ "$(tail -c 9 "$room/printed" | head -c 1 | od -An -tx1 | tr -d ' ')" = 8a ] || { echo "the session didn't end by its Bye" >&2; exit 1; }
awk -v ours="$took" -v plain="$(over "$room/uploads" "$plain")" 'BEGIN {
    printf "8 uploads of 8 MiB: %.0f ms, plain %.0f ms, ratio %.2f\n", ours / 1e6, plain / 1e6, ours / plain
}'
awk -v took="$(over "$room/coverage" "$ours" session "$design")" 'BEGIN { printf "Coverage: %.0f requests a second\n", 1e5 / took * 1e9 }'
