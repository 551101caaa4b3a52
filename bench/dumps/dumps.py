"""A dump of so many bytes at most, and the design text of its scope: dumps.py KIND BYTES DUMP DESIGN, KIND being scalars,
vectors, bench or changes, which is one step of changes of one bit."""
import random
import sys


def dump(kind, most):
    draw = random.Random(1)
    names = [chr(33 + number) for number in range(17)]
    width = {"scalars": 1, "vectors": 32, "bench": 8, "changes": 1}[kind]
    head = "$timescale 1ns $end\n$scope module top $end\n$var wire 1 ! clk $end\n"
    for number, code in enumerate(names[1:]):
        head += f"$var wire {width} {code} s{number} $end\n"
    parts = [head + "$upscope $end\n$enddefinitions $end\n"]
    size, time, level = len(parts[0]), 0, 0
    if kind == "changes":
        return parts[0] + "1!\n" * ((most - size) // 3)
    few = {"scalars": 16, "vectors": 8, "bench": 2}[kind]
    while True:
        step = f"#{time}\n{level}!\n"
        # what a clock moves moves at its rising edge; in a bench a few of the signals
        if level:
            for code in draw.sample(names[1:], few):
                value = draw.getrandbits(width)
                step += f"{value}{code}\n" if width == 1 else f"b{value:b} {code}\n"
        if size + len(step) > most:
            return "".join(parts)
        parts.append(step)
        size += len(step)
        time, level = time + 5, 1 - level


def design(kind):
    width = {"scalars": 1, "vectors": 32, "bench": 8, "changes": 1}[kind]
    below = {"scalars": 1, "vectors": 1073741824, "bench": 64, "changes": 1}[kind]
    guard = " && ".join(f"s{number} < {below}" for number in range(4))
    names = ", ".join(f"s{number}" for number in range(16))
    return (
        f"logic clk;\nlogic [{width - 1}:0] {names};\n"
        f"covergroup few @(posedge clk iff ({guard}));\n  seen: coverpoint s4;\nendgroup\nfew f = new;\n"
    )


open(sys.argv[3], "w").write(dump(sys.argv[1], int(sys.argv[2])))
open(sys.argv[4], "w").write(design(sys.argv[1]))
