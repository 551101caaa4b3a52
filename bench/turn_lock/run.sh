#!/usr/bin/env bash
# Builds both programs and prints what a take and a give cost, at the lock of crates/turn_lock (crates/bench)
# and at a plain mutex (mutex.rs). Needs rt and rustc. A word, if there is one, is the number of turns of each thread.
#
# Turns of the lock go by tickets, and with four threads the next ticket is mostly that of another thread; the mutex
# lets a thread take it again and again. Run it on a machine with nothing else to do.
cd "$(dirname "$0")"
source ../common.sh
turns=${1:-1000000}

build_bench turns 1 1
build_plain mutex.rs

# The least nanoseconds of nine runs of a program with so many threads and turns. It has to print all turns.
turning() {
    local threads=$1 turns=$2 took
    took=$(least 9 "${@:3}" "$threads" "$turns")
    [ "$(cat "$room/printed")" = "$((threads * turns))" ] || { echo "$3 lost a turn" >&2; exit 1; }
    echo "$took"
}

for threads in 1 4; do
    lock=$(($(turning "$threads" "$turns" "${ours[@]}") - $(turning "$threads" 0 "${ours[@]}")))
    mutex=$(($(turning "$threads" "$turns" "$plain") - $(turning "$threads" 0 "$plain")))
    awk -v threads="$threads" -v lock="$lock" -v mutex="$mutex" -v all="$((threads * turns))" 'BEGIN {
        printf "threads %d: lock %.1f ns a turn, mutex %.1f ns a turn, ratio %.2f\n", threads, lock / all, mutex / all, lock / mutex
    }'
done
