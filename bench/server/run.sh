#!/usr/bin/env bash
# Prints what `covd serve` does in a second, beside a plain server of the same frames (echo.rs) where one can stand in for it:
# round trips of Coverage over one connection and over four, and uploads of records of 1 MiB from one, two and four clients; and
# how long others wait while a large design is revised.
# Needs rt, rustc and python3; COVD names a built covd in place of the one of this checkout. Each server is one of this
# machine's, and ends with the script. Run it on a machine with nothing else to do.
cd "$(dirname "$0")"
source ../common.sh

if [ -n "${COVD:-}" ]; then ours=$COVD; else build_ours covd --version; fi
build_plain echo.rs
echo=$plain
load=$room/load
rustc --edition 2021 -O -C target-cpu=x86-64-v2 -o "$load" load.rs
python3 -B requests.py "$room"

# Starts a server of the design in this file, or of the one above, on an address that is free, and sets `address` to it and
# `server` to its process.
start() {
    address=127.0.0.1:$(python3 -c 'import socket; print(socket.create_server(("127.0.0.1", 0)).getsockname()[1])')
    if [ "$on" = ours ]; then
        "$ours" serve "${1:-$room/design.sv}" --listen "$address" --seats 8 >"$room/listening" &
    else
        "$echo" "$address" >"$room/listening" &
    fi
    server=$!
    while ! grep -q '^listening ' "$room/listening"; do sleep 0.05; done
}

# The least nanoseconds of seven runs of the load with these words, each on a server of its own; `$1` is the first tag that its
# replies may have, as a check that they were what was asked for.
load_on() {
    local tag=$1 best=0 took told
    shift
    for _ in 1 2 3 4 5 6 7; do
        start
        read -r took told <<<"$("$load" "$address" "$@")"
        kill "$server"
        wait "$server" 2>/dev/null || true
        [ "$on" = plain ] || grep -q "$tag:" <<<"$told" || { echo "replies were $told" >&2; exit 1; }
        if [ "$best" -eq 0 ] || [ "$took" -lt "$best" ]; then best=$took; fi
    done
    echo "$best"
}

for clients in 1 4; do
    files=$(for ((client = 0; client < clients; client++)); do echo "$room/coverage"; done)
    on=plain; plain_took=$(load_on 85 20 $files)
    on=ours; ours_took=$(load_on 85 20 $files)
    awk -v clients="$clients" -v ours="$ours_took" -v plain="$plain_took" 'BEGIN {
        all = clients * 20000
        printf "coverage, %d connections: %.0f round trips a second, plain echo %.0f, ratio %.2f\n", clients, all / ours * 1e9, all / plain * 1e9, ours / plain
    }'
done
on=ours
for clients in 1 2 4; do
    took=$(load_on 82 1 "$room"/upload.$clients.*)
    [ "$clients" -ne 1 ] || first=$took
    awk -v clients="$clients" -v took="$took" -v first="$first" 'BEGIN {
        printf "uploads, %d clients: %.1f records of 1 MiB a second, %.2f times one client\n", clients, 24 / took * 1e9, first / took
    }'
done

python3 -B turns.py --design >"$room/large.sv"
start "$room/large.sv"
python3 -B turns.py "$address"
kill "$server"
wait "$server" 2>/dev/null || true
