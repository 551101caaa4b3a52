#!/usr/bin/env bash
# Builds crates/store_rows and prints how long a store takes for coverage: of a point over 4,096 tests that each hit its
# 256 bins, and of the root of a design of 1,024 items with 262,144 bins, of which 16 tests hit all; and with merged
# instances. What making the store takes is measured by itself and taken off. Then it prints the most memory of a store
# whose kept bytes are near their limit, once with records of samples alone and once with records of set values alone, and
# of one whose kept entries of tallies are. Needs rt and /usr/bin/time. Run it on a machine with nothing else to do.
cd "$(dirname "$0")"
source ../common.sh

build_ours store_rows </dev/null

# Steps that set a signal to 0 to 255 and sample instance 0 each time.
steps=$(for value in $(seq 0 255); do printf ' 0=%s 0' "$value"; done)

tests() {
    echo "alone bit [7:0] v; covergroup g; option.at_least = 4096; p: coverpoint v { bins b[] = {[0:255]}; } endgroup g i = new;"
    echo "many 4096$steps"
    echo "again $1 g/i/p"
}

# 64 instances of 16 items of 256 bins; each step samples all instances.
items() {
    local all
    all=$(for value in $(seq 0 255); do printf ' 0=%s' "$value"; printf ' %s' $(seq 0 63); done)
    printf 'alone bit [7:0] v; covergroup g; %s' "$2"
    for item in $(seq 1 16); do printf ' p%s: coverpoint v { bins b[] = {[0:255]}; }' "$item"; done
    printf ' endgroup'
    for inst in $(seq 1 64); do printf ' g i%s = new;' "$inst"; done
    echo
    echo "many 16$all"
    echo "again $1 "
}

# measure NAME ROUNDS ROWS..
measure() {
    local name=$1 rounds=$2 one many
    shift 2
    "$1" 1 "${@:2}" >"$room/one"
    "$1" "$rounds" "${@:2}" >"$room/many"
    one=$(least 3 bash -c "'$ours' <'$room/one'")
    many=$(least 3 bash -c "'$ours' <'$room/many'")
    echo "$name: $rounds calls $(((many - one) / 1000000)) ms; the store itself $((one / 1000000)) ms; $(tail -1 "$room/printed")"
}

measure "a point over 4,096 tests" 100000 tests
measure "the root over 1,024 items" 100000 items ''
measure "the root over 1,024 items, merged" 10 items 'type_option.merge_instances = 1;'

# Records of so many times the same step.
long() {
    echo "alone bit [63:0] v; covergroup g; p: coverpoint v { bins b = {0}; } endgroup g i = new;"
    echo "many $1$(yes " $3" | head -n "$2" | tr -d '\n')"
}

# Tests that each hit 65,536 bins.
wide() {
    echo "alone bit [9:0] v; covergroup g;"$(for item in $(seq 1 64); do printf ' p%s: coverpoint v { bins b[] = {[0:1023]}; }' "$item"; done)" endgroup g i = new;"
    echo "many $1$(for value in $(seq 0 1023); do printf ' 0=%s 0' "$value"; done)"
}

# memory NAME ROWS..
memory() {
    local name=$1
    shift
    "$@" >"$room/rows"
    /usr/bin/time -f '%M' -o "$room/size" "$ours" <"$room/rows" >"$room/printed"
    echo "$name: $(($(cat "$room/size") / 1024)) MiB at most; $(tail -1 "$room/printed")"
}

memory "85 records of 1,048,576 samples, 267,386,880 bytes and what comes before" long 85 1048576 0
memory "32 records of 699,000 set values, 268,416,000 bytes and what comes before" long 32 699000 0=1
memory "256 tests of 65,536 bins, 16,777,216 entries" wide 256
