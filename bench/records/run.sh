#!/usr/bin/env bash
# Builds the programs and prints what reading and writing a record of 8 MiB cost, at crates/record_codec (by
# crates/bench) and at a plain Rust reader and writer with the same checks (plain.rs, for version 2 plain2.rs), in
# time and in instructions for each event. Needs rt, rustc, python3 and valgrind. A word, if there is one, is the number
# of rounds of each run. Run it on a machine with nothing else to do.
cd "$(dirname "$0")"
source ../common.sh
rounds=${1:-20}

build_bench records data/t1.rec 1 1

# For version 1 one signal of 64 bits and one instance; each Sample stands behind two Sets. For version 2 the instance has
# two arguments, so each Sample has a list of its own.
python3 - "$room" <<'RECORD'
import struct, sys
def text(t):
    return struct.pack(">H", len(t)) + t
def front(version):
    return b"CVRC" + struct.pack(">H", version) + text(b"t1") + struct.pack(">BQQ", 0, 1, 1) + text(b"")
def write(name, version, args):
    head = front(version) + struct.pack(">H", 1) + text(b"v") + bytes([64, 0]) + struct.pack(">H", 1) + text(b"i") + text(b"g")
    if version == 2:
        head += bytes([args]) + bytes([64, 0]) * args
    groups = (8388608 - len(head) - 4) // (27 + 9 * args)
    value, events = 1, bytearray()
    def draw():
        nonlocal value
        value = (value * 6364136223846793005 + 1442695040888963407) % 2**64
        return struct.pack(">BQ", 1, value)
    for _ in range(groups):
        for _ in range(2):
            events += struct.pack(">BH", 1, 0) + draw()
        events += struct.pack(">BH", 2, 0)
        for _ in range(args):
            events += draw()
    open(f"{sys.argv[1]}/{name}", "wb").write(head + struct.pack(">I", groups * 3) + events)
write("1.rec", 1, 0)
write("2.rec", 2, 2)
RECORD

# The time of the rounds alone: less that of a run that makes none.
cost() {
    local file=$1 reads=$2 writes=$3 program=("${@:4}")
    echo $(($(least 7 "${program[@]}" "$file" "$reads" "$writes") - $(least 7 "${program[@]}" "$file" 0 0)))
}

# The instructions for an event that one more reading, or writing, takes.
for_event() {
    local file=$1 reads=$2 writes=$3 program=("${@:4}")
    local more=$(($(instructions "${program[@]}" "$file" $((reads * 2)) $((writes * 2))) - $(instructions "${program[@]}" "$file" "$reads" "$writes")))
    awk -v more="$more" -v c="$("${program[@]}" "$file" 0 0)" 'BEGIN { printf "%.1f", more / c }'
}

for version in 1 2; do
    file=$room/$version.rec
    build_plain "$([ "$version" = 1 ] && echo plain.rs || echo plain2.rs)"
    for work in reading writing; do
        reads=1 writes=0
        [ "$work" = reading ] || { reads=0 writes=1; }
        proved=$(cost "$file" $((reads * rounds)) $((writes * rounds)) "${ours[@]}")
        count=$(cat "$room/printed")
        baseline=$(cost "$file" $((reads * rounds)) $((writes * rounds)) "$plain")
        [ "$count" = "$(cat "$room/printed")" ] || echo "$work: the programs count other events"
        awk -v version="$version" -v work="$work" -v a="$proved" -v b="$baseline" -v n="$rounds" -v c="$count" 'BEGIN {
            printf "version %d, %s %d events: %.2f ms, plain %.2f ms, ratio %.2f\n", version, work, c, a / n / 1e6, b / n / 1e6, a / b
        }'
        echo "version $version, $work: $(for_event "$file" $reads $writes "${ours[@]}") instructions an event, plain $(for_event "$file" $reads $writes "$plain")"
    done
done
