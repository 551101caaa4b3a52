#!/usr/bin/env bash
# A night by GNU parallel: `night.sh SEEDS HOST:PORT [COMMAND ..]`, COMMAND as in one_seed.py. The log night.log has a line for
# each seed with its status; a second call runs those that failed and those that weren't run, alone. JOBS says how many run at
# a time, and JOBS and --sshlogin of parallel (in PARALLEL) spread them over hosts.
set -euo pipefail
here=$(cd "$(dirname "$0")" && pwd)
seeds=$1
server=$2
shift 2
test "$#" -gt 0 || set -- python3 "$here/fifo_test.py" '{seed}' '{test}' '{record}'
# (parallel's own mark in braces is empty, so the seed has another; -q hands each word on as it is)
seq "$seeds" | parallel -q -I @SEED@ --jobs "${JOBS:-100%}" --joblog "${LOG:-night.log}" --resume-failed \
    python3 "$here/one_seed.py" ${RUN:-} --server "$server" --folder "${RECORDS:-records}" @SEED@ -- "$@"
