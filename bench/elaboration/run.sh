#!/usr/bin/env bash
# Builds crates/covd and prints what `covd check` costs on design texts that are dear to elaborate (texts.py): its least
# time of three runs, its greatest memory, and the third line that it prints, or its last. Needs rt, python3 and GNU time.
# Run it on a machine with nothing else to do.
cd "$(dirname "$0")"
source ../common.sh

build_ours covd check data/design.sv

for text in $(python3 texts.py "$room"); do
    took=$(least 3 "$ours" check "$room/$text.sv" || true)
    line=$(sed -n 3p "$room/printed")
    [ -n "$line" ] || line=$(tail -1 "$room/printed")
    memory=$(command time -f %M "$ours" check "$room/$text.sv" 2>&1 >"$room/printed" | tail -1 || true)
    awk -v text="$text" -v took="$took" -v memory="$memory" -v bytes="$(wc -c <"$room/$text.sv")" -v line="$line" 'BEGIN {
        printf "%-16s %8d bytes %8.1f ms %7.1f MiB  %s\n", text, bytes, took / 1e6, memory / 1024, line
    }'
done
