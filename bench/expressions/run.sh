#!/usr/bin/env bash
# Builds both programs and prints what the value of a guard or a point costs, at crates/const_eval (by
# crates/bench) and in plain Rust that walks the same trees (plain.rs), and how many instructions it takes.
# Needs rt, rustc and valgrind. A word, if there is one, is the number of rows. Run it on a machine with nothing else to
# do.
cd "$(dirname "$0")"
source ../common.sh
rows=${1:-2000000}

build_bench expressions 1
build_plain plain.rs

# Puts the processor milliseconds of a command into the file named first.
TIMEFORMAT=%3U
took() {
    { time "${@:2}" >"$room/printed"; } 2>"$room/took"
    tr -d . <"$room/took" >>"$1"
}

# Runs both in turn, and keeps the least of each.
for _ in $(seq 11); do
    took "$room/times_a" "${ours[@]}" "$rows"
    took "$room/times_b" "$plain" "$rows"
done
"${ours[@]}" "$rows" >"$room/a"
"$plain" "$rows" >"$room/b"
cmp -s "$room/a" "$room/b" || echo "the programs differ: $(cat "$room/a") here, $(cat "$room/b") there"
read -r _ evaluations <"$room/a"
least_a=$(sort -n "$room/times_a" | head -1)
least_b=$(sort -n "$room/times_b" | head -1)
awk -v a="$least_a" -v b="$least_b" -v n="$evaluations" 'BEGIN {
    printf "%d evaluations: %.1f ns each, plain %.1f ns, ratio %.2f\n", n, a * 1e6 / n, b * 1e6 / n, a / b
}'

# Prints the instructions of an evaluation by a program with its first words, under this name.
work() {
    local name=$1 more high low
    shift
    more=$(($(instructions "$@" 20000) - $(instructions "$@" 10000)))
    read -r _ high < <("$@" 20000)
    read -r _ low < <("$@" 10000)
    awk -v name="$name" -v more="$more" -v n="$((high - low))" 'BEGIN {
        printf "%s: %.1f instructions an evaluation\n", name, more / n
    }'
}

work here "${ours[@]}"
work plain "$plain"
