#!/usr/bin/env bash
# Builds both programs and prints what a ranking costs: of 256 tests at crates/rank_report (by crates/bench) and
# at the plain double loop in Rust (plain.rs), which asks each test again for each row; and of 4,096 tests at
# crates/rank_report alone. Each test has 4,096 entries, and as many hits of each of 262,144 bins are wanted as is said.
# Needs rt and rustc. Run it on a machine with nothing else to do.
cd "$(dirname "$0")"
source ../common.sh

build_bench ranking 2 3 1 1 1
build_plain plain.rs

# The time of the ranking alone: less that of a run that makes the tests and ranks none.
cost() {
    local runs=$1 tests=$2 want=$3 program=("${@:4}") none
    none=$(least "$runs" "${program[@]}" "$tests" 4096 64 "$want" 0)
    echo $(($(least "$runs" "${program[@]}" "$tests" 4096 64 "$want" 1) - none))
}

for want in 1 8 4096; do
    proved=$(cost 5 256 "$want" "${ours[@]}")
    rows=$(cat "$room/printed")
    baseline=$(cost 5 256 "$want" "$plain")
    [ "$rows" = "$(cat "$room/printed")" ] || echo "want $want: the programs rank otherwise"
    awk -v want="$want" -v a="$proved" -v b="$baseline" -v rows="$rows" 'BEGIN {
        split(rows, parts, " ")
        printf "256 tests, %d wanted, %d rows: %.0f ms, plain %.0f ms, ratio %.2f\n", want, parts[1], a / 1e6, b / 1e6, a / b
    }'
done
for want in 1 8 4096; do
    proved=$(cost 1 4096 "$want" "${ours[@]}")
    awk -v want="$want" -v a="$proved" -v rows="$(cat "$room/printed")" 'BEGIN {
        split(rows, parts, " ")
        printf "4096 tests, %d wanted, %d rows: %.1f s\n", want, parts[1], a / 1e9
    }'
done
