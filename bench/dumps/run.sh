#!/usr/bin/env bash
# Builds the programs and prints what a dump of 32 MiB costs, at crates/vcd_reader (by crates/bench) and at a plain
# Rust program with the same checks and the same counts of events (plain.rs): the time of reading it, and of making a record
# of it, which reads it too; and the most memory of a run that makes a record, the file's own bytes with it, in sizes of the
# file. The dumps are of scalars, of vectors, of a clock with a few signals, and of one step of changes.
# When it was written, reading took 0.2 to 0.4 s of one processor and a record 0.4 to 1.2 s, in 1.2 to 1.8 sizes of the dump;
# the plain program took 0.4 to 0.8 s and 0.4 to 0.9 s, in 3 to 15 sizes: it keeps 24 bytes a change.
# Needs rt, rustc and python3. A word, if there is one, is the number of runs. Run it on a machine with nothing else to do.
cd "$(dirname "$0")"
source ../common.sh
runs=${1:-5}

build_bench dumps data/levels.sv data/levels.vcd top 1 1
build_plain plain.rs

# The most memory of a run, in KiB.
peak() {
    python3 -c 'import resource, subprocess, sys
subprocess.run(sys.argv[1:], stdout=subprocess.DEVNULL, check=True)
print(resource.getrusage(resource.RUSAGE_CHILDREN).ru_maxrss)' "$@"
}

# Milliseconds that reading takes and that a record takes, and the memory of a record in sizes of the dump.
cost() {
    local text=$1 dump=$2 program=("${@:3}")
    local load read made most
    load=$(least "$runs" "${program[@]}" "$text" "$dump" top 0 0)
    read=$(($(least "$runs" "${program[@]}" "$text" "$dump" top 1 0) - load))
    made=$(($(least "$runs" "${program[@]}" "$text" "$dump" top 0 1) - load))
    most=$(peak "${program[@]}" "$text" "$dump" top 0 1)
    awk -v r="$read" -v m="$made" -v k="$most" -v s="$(stat -c %s "$dump")" 'BEGIN {
        printf "read %5.0f ms, record %5.0f ms, %.2f times its size", r / 1e6, m / 1e6, k * 1024 / s
    }'
}

for kind in scalars vectors bench changes; do
    text=$room/$kind.sv
    dump=$room/$kind.vcd
    python3 dumps.py "$kind" 33554432 "$dump" "$text"
    proved=$(cost "$text" "$dump" "${ours[@]}")
    count=$(cat "$room/printed")
    baseline=$(cost "$text" "$dump" "$plain")
    [ "$count" = "$(cat "$room/printed")" ] || echo "$kind: $count events here, $(cat "$room/printed") there"
    printf '%-8s %7d events: %s; plain %s\n' "$kind" "$count" "$proved" "$baseline"
done
