#!/usr/bin/env bash
# Builds both programs and prints what a sample costs at crates/trans_auto (by crates/bench) and at the
# same automata in plain Rust (plain.rs): 1,000,000 samples of which each moves one run and ends a window, and samples
# of a hostile set of sequences with 512 runs. Of both it prints the time, the least of several runs, and the
# instructions by callgrind. Needs rt, rustc and valgrind. Run it on a machine with nothing else to do.
cd "$(dirname "$0")"
source ../common.sh

build_bench transitions steady 10
build_plain plain.rs

# Runs both in turn, and prints the least nanoseconds of each.
compare() {
    local shape=$1 samples=$2 rounds=$3 best_a=0 best_b=0 from took
    for _ in $(seq "$rounds"); do
        from=$(date +%s%N)
        "${ours[@]}" "$shape" "$samples" >"$room/a"
        took=$(($(date +%s%N) - from))
        if [ "$best_a" -eq 0 ] || [ "$took" -lt "$best_a" ]; then best_a=$took; fi
        from=$(date +%s%N)
        "$plain" "$shape" "$samples" >"$room/b"
        took=$(($(date +%s%N) - from))
        if [ "$best_b" -eq 0 ] || [ "$took" -lt "$best_b" ]; then best_b=$took; fi
    done
    cmp -s "$room/a" "$room/b" || echo "$shape: $(cat "$room/a") here, $(cat "$room/b") there"
    awk -v shape="$shape" -v a="$best_a" -v b="$best_b" -v n="$samples" -v c="$(cat "$room/a")" 'BEGIN {
        printf "%-8s %8d samples, answers and runs %s: %9.1f ns a sample, plain %9.1f ns, ratio %.2f\n", shape, n, c, a / n, b / n, a / b
    }'
}

compare steady 1000002 9
compare hostile 10000 5

for shape in steady:100000 hostile:1000; do
    name=${shape%:*} count=${shape#*:}
    a=$(($(instructions "${ours[@]}" "$name" $((2 * count))) - $(instructions "${ours[@]}" "$name" "$count")))
    b=$(($(instructions "$plain" "$name" $((2 * count))) - $(instructions "$plain" "$name" "$count")))
    awk -v shape="$name" -v a="$a" -v b="$b" -v n="$count" 'BEGIN {
        printf "%-8s %9.1f instructions a sample, plain %9.1f, ratio %.2f\n", shape, a / n, b / n, a / b
    }'
done
