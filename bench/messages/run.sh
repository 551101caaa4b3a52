#!/usr/bin/env bash
# Builds both programs and prints what writing and reading a reply of 65,536 rows of counts cost, at crates/cov_proto (by
# crates/bench) and at a plain Rust writer and reader with the same checks (plain.rs), in processor time and in
# instructions for each row. Both write the same bytes. Needs rt, rustc and valgrind. A word, if there is one, is the
# number of rounds of each run. Run it on a machine with nothing else to do.
cd "$(dirname "$0")"
source ../common.sh
rounds=${1:-1000}
rows=65536

build_bench messages 2 1 1
build_plain plain.rs

# Puts the processor milliseconds of a command into the file named first.
TIMEFORMAT=%3U
took() {
    { time "${@:2}" >"$room/printed"; } 2>"$room/took"
    tr -d . <"$room/took" >>"$room/$1"
}

# The least processor milliseconds in a file of these.
fewest() {
    echo $((10#$(sort -n "$room/$1" | head -1)))
}

# The instructions for a row that one more round takes.
for_row() {
    local writes=$1 reads=$2 program=("${@:3}")
    local more=$(($(instructions "${program[@]}" "$rows" $((writes * 10 + 1)) $((reads * 10))) - $(instructions "${program[@]}" "$rows" 1 0)))
    awk -v more="$more" -v rows="$rows" 'BEGIN { printf "%.1f", more / 10 / rows }'
}

for work in writing reading; do
    writes=1 reads=0
    [ "$work" = writing ] || { writes=0 reads=1; }
    rm -f "$room"/times_*
    # In turn, each beside a run that writes once and reads nothing.
    for _ in $(seq 9); do
        took times_a "${ours[@]}" "$rows" $((writes * rounds + 1)) $((reads * rounds))
        mv "$room/printed" "$room/a"
        took times_b "$plain" "$rows" $((writes * rounds + 1)) $((reads * rounds))
        cmp -s "$room/a" "$room/printed" || echo "$work: the programs write other bytes"
        took times_none_a "${ours[@]}" "$rows" 1 0
        took times_none_b "$plain" "$rows" 1 0
    done
    proved=$(($(fewest times_a) - $(fewest times_none_a)))
    baseline=$(($(fewest times_b) - $(fewest times_none_b)))
    awk -v work="$work" -v rows="$rows" -v a="$proved" -v b="$baseline" -v n="$rounds" 'BEGIN {
        printf "%s %d rows: %.3f ms, plain %.3f ms, ratio %.2f\n", work, rows, a / n, b / n, a / b
    }'
    echo "$work: $(for_row $writes $reads "${ours[@]}") instructions a row, plain $(for_row $writes $reads "$plain")"
done
