#!/usr/bin/env bash
# Builds crates/bench and prints what lexing and parsing of design texts cost: the time on texts of 64 KiB,
# 256 KiB and 1 MiB, how it grows from one to the next, the peak of memory for each byte of the text, and the
# instructions a token at each length. The last four texts are made to be dear: long types of many variables, 1,024
# operators in each expression, 64 levels in each, and one declaration of as many variables as there is room for. Needs
# rt, python3, GNU time, and valgrind for the instructions. A word, if there is one, is the number of rounds of each run. Run it on
# a machine with nothing else to do.
cd "$(dirname "$0")"
source ../common.sh
rounds=${1:-20}

build_bench parsing data/points.sv 1 1

python3 - "$room" <<'TEXTS'
import sys
room = sys.argv[1]
shapes = {
    "bins": "covergroup g; p: coverpoint v { bins low[4] = {[0:15], 8'h20}; bins b = (1 => 2[*3]); } endgroup\n",
    "expressions": "g i = new((a + b * c) << 2 | ~d[3:0] & {e, 1'b1} ? f && g : h == 5 % 7);\n",
    "crosses": "covergroup g; x: cross p, q { bins b = !binsof(p) && binsof(q.r) intersect {1, [2:3]}; } endgroup\n",
}

def filled(size, head, unit, tail):
    return head + unit * ((size - len(head) - len(tail)) // len(unit)) + tail

for size in (65536, 262144, 1048576):
    texts = {name: filled(size, "", unit, "") for name, unit in shapes.items()}
    texts["values"] = filled(size, "covergroup g; coverpoint v { bins b = {0", ", 17", "}; } endgroup")
    texts["spans"] = filled(size, filled(size // 2, "bit[{1", ",1", "}:0]a"), ",a", ";")
    texts["operators"] = filled(size, "", "g i=new(1" + "+1" * 1024 + ");", "")
    texts["levels"] = filled(size, "", "g i=new(" + "(" * 64 + "1" + ")" * 64 + ");", "")
    texts["variables"] = filled(size, "bit a", ",a", ";")
    for name, text in texts.items():
        open(f"{room}/{name}{size}.sv", "w").write(text)
TEXTS

# The most bytes that a run of a program has at once.
peak() {
    /usr/bin/time -f %M -o "$room/peak" "$@" >"$room/printed"
    echo $(($(cat "$room/peak") * 1024))
}

least_peak=$(peak "${ours[@]}" ../../crates/bench/data/points.sv 1 1)

for shape in bins values expressions crosses spans operators levels variables; do
    before=0
    for size in 65536 262144 1048576; do
        text="$room/$shape$size.sv"
        once=$(least 5 "${ours[@]}" "$text" 1 1)
        lexing=$(($(least 5 "${ours[@]}" "$text" $((rounds + 1)) 1) - once))
        parsing=$(($(least 5 "${ours[@]}" "$text" 1 $((rounds + 1))) - once))
        tokens=$(awk '{ print $1 }' "$room/printed")
        memory=$(($(peak "${ours[@]}" "$text" 1 1) - least_peak))
        awk -v shape="$shape" -v size="$size" -v a="$lexing" -v b="$parsing" -v n="$rounds" -v c="$tokens" -v before="$before" -v memory="$memory" 'BEGIN {
            printf "%-12s %8d bytes %7d tokens: lexing %7.2f ms, parsing %7.2f ms, memory %4.0f bytes a byte", shape, size, c, a / n / 1e6, b / n / 1e6, memory / size
            if (before > 0) printf ", %.2f times the one before", b / before
            printf "\n"
        }'
        before=$parsing
    done
    if command -v valgrind >/dev/null; then
        for size in 65536 262144 1048576; do
            text="$room/$shape$size.sv"
            # One more after two: what malloc joins of the first tree is counted in the second run, and at some lengths what it
            # joins of the last one too, which a single tree never costs.
            two=$(instructions "${ours[@]}" "$text" 2 2)
            lexed=$(instructions "${ours[@]}" "$text" 3 2)
            parsed=$(instructions "${ours[@]}" "$text" 2 3)
            tokens=$(awk '{ print $1 }' "$room/printed")
            awk -v size="$size" -v a="$((lexed - two))" -v b="$((parsed - two))" -v c="$tokens" 'BEGIN {
                printf "%12s %8d bytes, instructions a token: lexing %.0f, parsing %.0f\n", "", size, a / c, b / c
            }'
        done
    fi
done
