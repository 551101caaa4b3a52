#!/usr/bin/env python3
"""Writes the cases of the benchmark into the folder that is named: for each a design text (.sv), a record (.rec) and the
same bins for the plain program (.bins). Prints a line for each: its name, and how many samples of items it has."""
import struct
import sys

room = sys.argv[1]
MOST_EVENTS = 1048576
MOST_BYTES = 8388608


def text(t):
    t = t.encode()
    return struct.pack(">H", len(t)) + t


def draws(seed):
    value = seed
    while True:
        value = (value * 6364136223846793005 + 1442695040888963407) % 2**64
        yield value >> 33


def record(path, signals, instances, events):
    """Signals are pairs of a name and a width; an event is a pair of a signal and a value, or an instance alone."""
    head = b"CVRC" + struct.pack(">H", 1) + text("t1") + struct.pack(">BQQ", 0, 1, 1) + text("")
    head += struct.pack(">H", len(signals))
    for name, width in signals:
        head += text(name) + bytes([width, 0])
    head += struct.pack(">H", len(instances))
    for name, group in instances:
        head += text(name) + text(group)
    body, count, left = bytearray(), 0, MOST_BYTES - len(head) - 4
    for event in events:
        one = struct.pack(">BH", 2, event) if isinstance(event, int) else struct.pack(">BHBQ", 1, event[0], 1, event[1])
        if count == MOST_EVENTS or len(body) + len(one) > left:
            break
        body += one
        count += 1
    open(path, "wb").write(head + struct.pack(">I", count) + body)


def walked(signal, values, instance=0):
    for value in values:
        yield (signal, value)
        yield instance


def slow(width, step=1):
    value = 0
    for more in draws(1):
        value = (value + more % (2 * step + 1)) % 2**width
        yield value


def random(width):
    for value in draws(2):
        yield value % 2**width


def parts(count, width):
    """The bins of an array of so many equal parts."""
    size = 2**width // count
    return [[(k * size, k * size + size - 1)] for k in range(count)]


def case(name, declarations, group, signals, points, crosses, events, samples, instances=1):
    names = [(f"i{k}", "g") for k in range(instances)]
    made = "\n".join(f"g i{k} = new;" for k in range(instances))
    open(f"{room}/{name}.sv", "w").write(f"{declarations}\ncovergroup g;\n{group}\nendgroup\n{made}\n")
    record(f"{room}/{name}.rec", signals, names, events)
    lines = [f"instances {instances}"]
    for signal, bins in points:
        lines.append(f"point {signal} {len(bins)}")
        lines += [f"{kind} " + " ".join(f"{low} {high}" for low, high in ranges) for kind, ranges in bins]
    for axes, picks in crosses:
        lines.append("cross " + " ".join(str(axis) for axis in axes))
        lines += [f"pick {axis} {low} {high}" for axis, low, high in picks]
    open(f"{room}/{name}.bins", "w").write("\n".join(lines) + "\n")
    print(name, samples)


def sets(bins):
    return [("set", ranges) for ranges in bins]


half = MOST_EVENTS // 2
for count in (64, 4096, 65536):
    for kind, values in (("slow", slow(16)), ("random", random(16))):
        case(f"{kind}_{count}", "bit [15:0] v;", f"p: coverpoint v {{ bins b[{count}] = {{[0:65535]}}; }}", [("v", 16)],
             [(0, sets(parts(count, 16)))], [], walked(0, values), half)

wide = "\n".join(f"p{k}: coverpoint v {{ bins b[64] = {{[0:65535]}}; }}" for k in range(64))
case("points", "bit [15:0] v;", wide, [("v", 16)], [(0, sets(parts(64, 16)))] * 64, [], walked(0, (v for _, v in zip(range(65536), random(16)))), 64 * 65536)


def turns(count):
    for k, value in zip(range(half), random(16)):
        yield (0, value)
        yield k % count


case("instances", "bit [15:0] v;", "p: coverpoint v { bins b[64] = {[0:65535]}; }", [("v", 16)], [(0, sets(parts(64, 16)))], [], turns(1024), half, 1024)

most = [[(k, 65535 - k)] for k in range(4096)]
case("overlapping", "bit [15:0] v;", "p: coverpoint v {\n" + "\n".join(f"bins b{k} = {{[{k}:{65535 - k}]}};" for k in range(4096)) + "\n}", [("v", 16)],
     [(0, sets(most))], [], (e for _, e in zip(range(8192), walked(0, random(16)))), 4096)

marks = [(0xFF << (k % 56), (0x55 + k) % 256 << (k % 56)) for k in range(64)]
case("wildcards", "bit [63:0] v;", "p: coverpoint v {\n" + "\n".join(
    f"wildcard bins w{k} = {{64'b" + "".join(("?" if not mask >> bit & 1 else str(value >> bit & 1)) for bit in reversed(range(64))) + "};"
    for k, (mask, value) in enumerate(marks)) + "\n}", [("v", 64)],
     [(0, [("mask", [(mask, value)]) for mask, value in marks])], [], (e for _, e in zip(range(131072), walked(0, (a << 33 | b for a, b in zip(draws(3), draws(4)))))), 65536)

case("lists", "bit [7:0] v;", "p: coverpoint v { bins b[] = ([0:255] => [0:255]); }", [("v", 8)],
     [(0, [("list", [(k // 256, k % 256)]) for k in range(65536)])], [], walked(0, random(8)), half)
case("list", "bit [7:0] v;", "p: coverpoint v { bins b = (1 => 2); }", [("v", 8)], [(0, [("list", [(1, 2)])])], [], walked(0, random(8)), half)
case("sequence", "bit [7:0] v;", "p: coverpoint v { bins b = (1 [*1:2] => 2); }", [("v", 8)], [(0, [("list", [(1, 2)])])], [], walked(0, random(8)), half)

steps = [(k, (k + 1) % 64) for k in range(64)]
case("transitions", "bit [5:0] v;", "p: coverpoint v {\n" + "\n".join(f"bins t{k} = ({a} => {b});" for k, (a, b) in enumerate(steps)) + "\n}", [("v", 6)],
     [(0, [("list", [step]) for step in steps])], [], (e for _, e in zip(range(131072), walked(0, random(6)))), 65536)

case("crosses", "bit [15:0] v;\nbit [15:0] w;", "p: coverpoint v { bins b[64] = {[0:65535]}; }\nq: coverpoint w { bins b[64] = {[0:65535]}; }\nc: cross p, q;",
     [("v", 16), ("w", 16)], [(0, sets(parts(64, 16))), (1, sets(parts(64, 16)))], [((0, 1), [])],
     (e for a, b in zip(random(16), slow(16)) for e in ((0, a), (1, b), 0)), 3 * 310000)

# 1,048,576 products, each in one of 64 bins of the cross
case("picks", "bit [15:0] v;\nbit [15:0] w;", "p: coverpoint v { bins b[1024] = {[0:65535]}; }\nq: coverpoint w { bins b[1024] = {[0:65535]}; }\nc: cross p, q {\n"
     + "\n".join(f"bins x{k} = binsof(p) intersect {{[{1024 * k}:{1024 * k + 1023}]}};" for k in range(64)) + "\n}",
     [("v", 16), ("w", 16)], [(0, sets(parts(1024, 16))), (1, sets(parts(1024, 16)))], [((0, 1), [(0, 16 * k, 16 * k + 15) for k in range(64)])],
     (e for a, b in zip(random(6), slow(16)) for e in ((0, 1024 * a), (1, b), 0)), 3 * 310000)

# 1,000,000 samples each of which ends a window that begins at the first one
open(f"{room}/window.sv", "w").write("bit [7:0] v;\ncovergroup g;\np: coverpoint v { bins b = (1 => 2[=1] => 3); }\nendgroup\ng i0 = new;\n")
record(f"{room}/window.rec", [("v", 8)], [("i0", "g")], [(0, 1), 0, (0, 2), 0, (0, 3)] + [0] * 1000000)

# so many bins as a design may have
open(f"{room}/most.sv", "w").write("bit [15:0] v;\ncovergroup g;\n" + "\n".join(f"p{k}: coverpoint v {{ bins b[65536] = {{[0:65535]}}; }}" for k in range(4)) + "\nendgroup\ng i0 = new;\n")
