#!/usr/bin/env bash
# Builds both programs and prints what a sample of an item costs at crates/sampler (by crates/bench) and at the
# same tables in plain Rust (plain.rs), over the same records (cases.py); then the tables of 262,144 bins, and a record of
# 1,048,576 events with its decoding. Times are the least of several runs of two rounds, less those of one round;
# instructions are counted by callgrind. Needs rt, rustc, python3 and valgrind. A word, if there is one, is the number of
# runs. Run it on a machine with nothing else to do.
cd "$(dirname "$0")"
source ../common.sh
runs=${1:-5}

build_bench sampling data/design.sv data/t1.rec count 1
build_plain plain.rs
python3 cases.py "$room" >"$room/cases"

# The time of one round.
cost() {
    echo $(($(least "$runs" "$@" 2) - $(least "$runs" "$@" 1)))
}

# The instructions of one round.
work() {
    echo $(($(instructions "$@" 2) - $(instructions "$@" 1)))
}

while read -r name samples; do
    a=$(cost "${ours[@]}" "$room/$name.sv" "$room/$name.rec" count)
    mine=$(cat "$room/printed")
    b=$(cost "$plain" "$room/$name.bins" "$room/$name.rec" count)
    [ "$mine" = "$(cat "$room/printed")" ] || echo "$name: $mine here, $(cat "$room/printed") there"
    awk -v name="$name" -v a="$a" -v b="$b" -v n="$samples" 'BEGIN {
        printf "%-14s %8d samples: %9.1f ns a sample, plain %9.1f ns, ratio %.2f\n", name, n, a / n, b / n, a / b
    }'
done <"$room/cases"

for name in slow_64 random_4096 points overlapping transitions crosses picks; do
    samples=$(awk -v name="$name" '$1 == name { print $2 }' "$room/cases")
    a=$(work "${ours[@]}" "$room/$name.sv" "$room/$name.rec" count)
    b=$(work "$plain" "$room/$name.bins" "$room/$name.rec" count)
    awk -v name="$name" -v a="$a" -v b="$b" -v n="$samples" 'BEGIN {
        printf "%-14s %9.1f instructions a sample, plain %9.1f, ratio %.2f\n", name, a / n, b / n, a / b
    }'
done

a=$(cost "${ours[@]}" "$room/points.sv" "$room/points.rec" count)
b=$(cost "${ours[@]}" "$room/points.sv" "$room/points.rec" threads)
awk -v a="$a" -v b="$b" -v n="$(nproc)" 'BEGIN { printf "64 points in threads on %d processors: %.2f times as fast\n", n, a / b }'
a=$(cost "${ours[@]}" "$room/window.sv" "$room/window.rec" count)
[ "$(cat "$room/printed")" = "1 1000000" ] || echo "a window over 1,000,000 samples: $(cat "$room/printed")"
awk -v a="$a" 'BEGIN { printf "1,000,000 samples behind one window: %.1f ms\n", a / 1e6 }'
a=$(cost "${ours[@]}" "$room/most.sv" "$room/random_64.rec" plan)
awk -v a="$a" 'BEGIN { printf "tables of 262,144 bins: %.1f ms\n", a / 1e6 }'
a=$(cost "${ours[@]}" "$room/random_64.sv" "$room/random_64.rec" whole)
awk -v a="$a" 'BEGIN { printf "a record of 1,048,576 events, decoded and counted: %.1f ms\n", a / 1e6 }'
