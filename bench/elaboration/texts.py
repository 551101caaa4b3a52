#!/usr/bin/env python3
"""Writes design texts that are dear to elaborate, one a file, into the folder that is named."""
import random
import sys

room = sys.argv[1]
LONGEST = 1048576


def group(declarations, body, after=""):
    return f"{declarations}\ncovergroup g;\n{body}\nendgroup\ng i = new;\n{after}"


def point(bins, width=16, name="p", signal="v"):
    return f"{name}: coverpoint {signal} {{ {bins} }}"


def many(unit, room_left, first=0):
    """As many numbered copies of a unit as fit."""
    out, size, k = [], 0, first
    while True:
        one = unit(k)
        if size + len(one) > room_left:
            return "".join(out)
        out.append(one)
        size += len(one)
        k += 1


def digits(k):
    letters = "0123456789abcdefghijklmnopqrstuvwxyz"
    text = ""
    while True:
        text = letters[k % 36] + text
        k //= 36
        if k == 0:
            return text


draw = random.Random(1)


def box(k):
    """A sequence of two ranges of bytes."""
    ends = [draw.randrange(256) for place in range(4)]
    return f"([{min(ends[:2])}:{max(ends[:2])}]=>[{min(ends[2:])}:{max(ends[2:])}]),"


def span(end):
    """A range of numbers below the end."""
    ends = [draw.randrange(end) for place in range(2)]
    return f"[{min(ends)}:{max(ends)}]"


def varied(k):
    """A sequence with lists of two lengths."""
    return f"(1[*1:2]=>{span(180)}=>{span(180)}),"


def small_box(k):
    """A sequence of ten small ranges."""
    return "(" + "=>".join(span(3) for place in range(10)) + "),"


def cube(k):
    """A sequence of three ranges."""
    return "(" + "=>".join(span(36) for place in range(3)) + "),"


def varied_cube(k):
    """The same behind an item of two lengths."""
    return "(1[*1:2]=>" + "=>".join(span(32) for place in range(3)) + "),"


def odd_box(k):
    """A sequence of nine small ranges, and a number that few others have."""
    return "(" + "=>".join(span(3) for place in range(9)) + f"=>{draw.randrange(200)}),"


def twice_behind(k):
    """A range, and a number that stands twice behind it."""
    return f"({span(256)}=>{draw.randrange(180)}[*2]),"


def number_between(k):
    """A number between two ranges."""
    return f"({span(256)}=>{draw.randrange(100)}=>{span(2)}),"


def number_at_the_end(k):
    """A number of two lengths, two ranges, and a number behind them."""
    return f"({draw.randrange(2)}[*1:2]=>{span(180)}=>{span(2)}=>{draw.randrange(4)}),"


def number_far(k):
    """Two ranges, and a number behind both."""
    return f"({span(100)}=>{span(100)}=>{draw.randrange(6)}),"


def pair_twice(k):
    """A range, and two numbers next to each other that stand twice behind it."""
    low = draw.randrange(60)
    return f"({span(256)}=>[{low}:{low + 1}][*2]),"


def square_twice(k):
    """Two ranges, and a number that stands twice behind them."""
    return f"({span(40)}=>{span(40)}=>{draw.randrange(40)}[*2]),"


def small_twice(k):
    """Seven small ranges, and a number that stands twice behind them."""
    return "(" + "=>".join(span(3) for place in range(7)) + f"=>{draw.randrange(3)}[*2]),"


def waits(k):
    """A sequence of a few numbers that are waited for, and a repetition."""
    return f"({span(4)}[->1:{draw.randrange(1, 4)}]=>{span(6)}[*1:3]),"


texts = {
    # values
    "one_set": group("bit [63:0] v;", point("bins b = {[0:$]};")),
    "spread": group("bit [63:0] v;", point("bins b[65536] = {[0:$]};")),
    "singles": group("bit [15:0] v;", point("bins b[] = {[0:$]};")),
    "automatic": group("bit [63:0] v;", "p: coverpoint v { option.auto_bin_max = 65536; }"),
    "ignored_singles": group(
        "bit [16:0] v;",
        point("bins b[] = {[0:49999]}; ignore_bins n = {[0:$]} with (item % 2 == 0 || item > 49999);"),
    ),
    "wildcards": group("bit [15:0] v;", point("wildcard bins b[] = {16'b?_????_????_????_???};")),
    "patterns": group(
        "bit [15:0] v;", point(many(lambda k: f"wildcard bins {'w_' + digits(k)} = {{16'h?{k % 4096:03x}}};", LONGEST - 200))
    ),
    "filtered": group("bit [19:0] v;", point("bins b[64] = {[0:$]} with (item % 3 == 0);")),
    "default_array": group("bit [15:0] v;", point("bins a = {[0:999]}; bins d[] = default;")),
    "listed": group("bit [19:0] v;", point("bins b = {" + many(lambda k: f"{2 * k},", LONGEST - 200) + "0};")),
    # transitions
    "lists": group("bit [7:0] v;", point("bins b[] = ([0:255] => [0:255]);")),
    "long_lists": group("bit [15:0] v;", point("bins b[] = ([0:65535] => 1[*63]);")),
    "lists_past_the_design": group("bit [15:0] v;", point("bins b[] = ([0:65535] => 1[*119]);")),
    "many_sequences": group("bit [15:0] v;", point("bins b[] = " + many(lambda k: "([0:65535]),", LONGEST - 200) + "(0);")),
    # sequences that overlap: each has thousands of lists, of which the earlier ones have all but one or none
    "shrinking": group("bit [15:0] v;", point("bins b[] = " + many(lambda k: f"([{k % 65536}:65535]),", LONGEST - 200) + "(0);")),
    "growing": group("bit [15:0] v;", point("bins b[] = " + many(lambda k: f"([0:{k % 65536}]),", LONGEST - 200) + "(0);")),
    "sliding": group(
        "bit [15:0] v;",
        point("bins b[] = " + many(lambda k: f"([{k % 32768}:{k % 32768 + 32767}]),", LONGEST - 200) + "(0);"),
    ),
    "shrinking_fronts": group(
        "bit [15:0] v;", point("bins b[] = " + many(lambda k: f"([{k % 65536}:65535]=>1),", LONGEST - 200) + "(0);")
    ),
    "boxes": group("bit [7:0] v;", point("bins b[] = " + many(box, LONGEST - 200) + "(0=>0);")),
    "varied_lengths": group("bit [7:0] v;", point("bins b[] = " + many(varied, LONGEST - 200) + "(0=>0);")),
    "small_boxes": group("bit [1:0] v;", point("bins b[] = " + many(small_box, LONGEST - 200) + "(3);")),
    "cubes": group("bit [7:0] v;", point("bins b[] = " + many(cube, LONGEST - 200) + "(0);")),
    "varied_cubes": group("bit [7:0] v;", point("bins b[] = " + many(varied_cube, LONGEST - 200) + "(0=>0);")),
    "odd_boxes": group("bit [7:0] v;", point("bins b[] = " + many(odd_box, LONGEST - 200) + "(3);")),
    "twice_behind": group("bit [7:0] v;", point("bins b[] = " + many(twice_behind, LONGEST - 200) + "(0);")),
    "number_between": group("bit [7:0] v;", point("bins b[] = " + many(number_between, LONGEST - 200) + "(0);")),
    "number_at_the_end": group("bit [7:0] v;", point("bins b[] = " + many(number_at_the_end, LONGEST - 200) + "(0);")),
    "number_far": group("bit [7:0] v;", point("bins b[] = " + many(number_far, LONGEST - 200) + "(0);")),
    "pair_twice": group("bit [7:0] v;", point("bins b[] = " + many(pair_twice, LONGEST - 200) + "(0);")),
    "square_twice": group("bit [7:0] v;", point("bins b[] = " + many(square_twice, LONGEST - 200) + "(0);")),
    "small_twice": group("bit [1:0] v;", point("bins b[] = " + many(small_twice, LONGEST - 200) + "(3);")),
    "waits": group("bit [7:0] v;", point("bins b[] = " + many(waits, LONGEST - 200) + "(0);")),
    "single_steps": group("bit [7:0] v;", point("bins b[] = (" + "1=>" * 118 + "[0:255]=>[0:255]);")),
    "two_lengths": group("bit [15:0] v;", point("bins b[] = (" + "5[*1:2]=>" * 59 + "[0:1000]=>6);")),
    # items of one list between items of several: the lists behind are not to be gone through for each of them
    "singles_before": group("bit [7:0] v;", point("bins b[] = (" + "2=>1=>" * 22 + "2=>1[*1:2]=>[0:127]=>[0:255]);")),
    "singles_between": group("bit [7:0] v;", point("bins b[] = (" + "3=>4=>5=>6=>7=>1[*1:2]=>[0:1]=>" * 8 + "2);")),
    "singles_behind": group("bit [7:0] v;", point("bins b[] = (1[*1:2]=>" + "2=>" * 60 + "[0:127]=>[0:255]);")),
    "repeated": group(
        "bit [7:0] v;", point(many(lambda k: f"bins {'b_' + digits(k)} = (1[*1:9] => [2:3][=1:9] => 4[->1:19]);", LONGEST - 200))
    ),
    # crosses
    "declared_cross": group(
        "bit [9:0] v, w;",
        point("bins b[] = {[0:$]};")
        + point("bins b[] = {[0:$]};", name="q", signal="w")
        + "cross p, q { "
        + many(lambda k: f"bins {'_' + digits(k)}=binsof(p);" if k < 58000 else " " * LONGEST, LONGEST - 300)
        + "}",
    ),
    "ignored_cross": group(
        "bit [9:0] v, w;",
        point("bins b[] = {[0:$]};")
        + point("bins b[] = {[0:$]};", name="q", signal="w")
        + "cross p, q { ignore_bins n = !(binsof(p) intersect {0} && binsof(q) intersect {[0:9]}); }",
    ),
    # declarations
    "signals": group("".join(f"bit [7:0] s{k};" for k in range(4095)) + "bit [7:0] v;", point("bins b = {0};")),
    "formals": "covergroup g("
    + ",".join(f"int f{k}={k}" for k in range(64))
    + "); coverpoint f0 { bins b = {[f1:f2]}; } endgroup\n"
    + "".join(f"g i{k}=new({k},2);" for k in range(1024)),
    "constants": "typedef enum {" + ",".join("c" + digits(k) for k in range(100000)) + "} e; e v;",
    "all_bins": group(
        "bit [15:0] v;", "".join(point("bins b[] = {[0:$]};", name=name) for name in ("p", "q", "r", "s"))
    ),
}

for name, text in texts.items():
    assert len(text) <= LONGEST, name
    open(f"{room}/{name}.sv", "w").write(text)
print(*texts)
