#!/usr/bin/env bash
# Builds both programs and prints what lexing costs on texts of 1 MiB of several shapes, at crates/cov_lexer (by
# crates/bench) and at a plain Rust scan of the same bytes (scan.rs). Needs rt, rustc and python3.
# A word, if there is one, is the number of rounds of each run. Run it on a machine with nothing else to do.
cd "$(dirname "$0")"
source ../common.sh
rounds=${1:-20}

build_bench lexing data/points.sv 1
build_plain scan.rs

python3 - "$room" <<'TEXTS'
import sys
room = sys.argv[1]
size = 1048576
def keep(name, text):
    open(f"{room}/{name}.sv", "w").write(text[:size])
keep("comment", "/*" + "c" * (size - 4) + "*/")
keep("operators", "(;" * (size // 2))
keep("names", ("n" * 1000 + " ") * (size // 1001) + " " * 1001)
keep("literals", "64'hFFFF_0000_xxxx_1234 " * (size // 24))
design = "covergroup g; p: coverpoint v { bins low[4] = {[0:15], 8'h20}; bins b = (1 => 2[*3]); } endgroup // text\n"
keep("design", design * (size // len(design)))
TEXTS

for shape in comment operators names literals design; do
    proved=$(least 7 "${ours[@]}" "$room/$shape.sv" "$rounds")
    count=$(cat "$room/printed")
    baseline=$(least 7 "$plain" "$room/$shape.sv" "$rounds")
    other=$(cat "$room/printed")
    [ "$count" = "$other" ] || echo "$shape: $count tokens here, $other there"
    awk -v shape="$shape" -v a="$proved" -v b="$baseline" -v n="$rounds" -v c="$count" 'BEGIN {
        printf "%-10s %8d tokens: %7.2f ms, plain %7.2f ms, ratio %.2f\n", shape, c, a / n / 1e6, b / n / 1e6, a / b
    }'
done
