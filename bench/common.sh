# What the scripts run.sh share; each sources it from its own folder. `room` is a folder that goes when the script ends.
set -euo pipefail
room=$(mktemp -d)
trap 'rm -rf "$room"' EXIT

# Proves and builds crates/NAME by a first run with these words, and sets `ours` to its program.
build_ours() {
    local name=$1
    if ! (cd "../../crates/$name" && rt run -- "${@:2}") >"$room/log" 2>&1; then
        tail -20 "$room/log"
        exit 1
    fi
    ours=../../crates/$name/out/$name
}

# Proves and builds crates/bench by a first run of a measurement with these words, and sets `ours` to the command of it.
build_bench() {
    build_ours bench "$@"
    ours=("$ours" "$1")
}

# Compiles a plain Rust program, and sets `plain` to it.
build_plain() {
    plain=$room/plain
    rustc --edition 2021 -O -C target-cpu=x86-64-v2 -o "$plain" "$1"
}

# The least nanoseconds of so many runs of a program. What it prints stands in the room's file `printed`.
least() {
    local runs=$1 best=0 from took
    shift
    for ((run = 0; run < runs; run++)); do
        from=$(date +%s%N)
        "$@" >"$room/printed"
        took=$(($(date +%s%N) - from))
        if [ "$best" -eq 0 ] || [ "$took" -lt "$best" ]; then best=$took; fi
    done
    echo "$best"
}

# The instructions of a run, counted by callgrind. What it prints stands in the room's file `printed`.
instructions() {
    valgrind --tool=callgrind --callgrind-out-file="$room/calls" "$@" 2>&1 >"$room/printed" |
        sed -n 's/.*Collected : *//p'
}
