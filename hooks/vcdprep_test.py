#!/usr/bin/env python3
"""Tests of vcdprep.py: small dumps with what is to be written, by hand."""

import os
import subprocess
import sys
import tempfile

HERE = os.path.dirname(os.path.abspath(__file__))

HEAD = """$timescale 1 ns $end
$scope module tb $end
$var reg 1 ! clk $end
$scope module dut $end
$var reg 16 a ram[10] [15:0] $end
$var reg 72 w wide [71:0] $end
$var reg 1 b d[2] $end
$var reg 1 c d[0] $end
$var reg 1 e d[1] $end
$upscope $end
$upscope $end
$enddefinitions $end
"""


def prepared(text, *words, names=("out.vcd",)):
    with tempfile.TemporaryDirectory() as folder:
        source = os.path.join(folder, "in.vcd")
        with open(source, "w", encoding="ascii") as file:
            file.write(text)
        command = [sys.executable, os.path.join(HERE, "vcdprep.py"), source, os.path.join(folder, "out.vcd"), *words]
        done = subprocess.run(command, capture_output=True, text=True, check=False)
        if done.returncode:
            return done.stderr
        texts = []
        for name in names:
            with open(os.path.join(folder, name), encoding="ascii") as file:
                texts.append(file.read().split("$enddefinitions $end\n")[1])
        return texts


def same(got, wanted):
    if got != wanted:
        sys.exit(f"vcdprep_test: got {got!r}\nwanted {wanted!r}")


def main():
    # a word of an array, a part of a wide vector, and bits that are joined
    body = "#0\n0!\nb101 a\nb1" + "0" * 71 + " w\n1b\n0c\nxe\n#5\n1!\n1e\n#6\n"
    picks = ("--scope", "cov", "clk=tb.clk", "word=tb.dut.ram[10]", "top=tb.dut.wide[71:69]", "d=tb.dut.d", "one=tb.dut.d[1]")
    same(
        prepared(HEAD + body, *picks),
        ["#0\n0!\nb0000000000000101 \"\nb100 #\nb1x0 $\nx%\n#5\n1!\nb110 $\n1%\n#6\n"],
    )
    # a scope with an index
    indexed = HEAD.replace("module dut", "begin lane[0]")
    same(prepared(indexed + "#0\n0!\nb101 a\n#1\n1!\n", "--scope", "s", "c=tb.clk", "m=tb.lane[0].ram[10][2:0]"),
         ["#0\n0!\nb101 \"\n#1\n1!\n#1\n"])
    # nine values become four
    same(prepared(HEAD + "#0\nU!\nbUWLH- a\n#1\nH!\n", "--scope", "s", "c=tb.clk", "m=tb.dut.ram[10][4:0]"),
         ["#0\nx!\nbxx01x \"\n#1\n1!\n#1\n"])
    # a gap is left out
    same(prepared(HEAD + "#0\n0!\n#1\n$dumpoff\nx!\n$end\n#2\n$dumpon\n1!\n$end\n", "--scope", "s", "--no-gaps", "c=tb.clk"),
         ["#0\n0!\n#2\n1!\n#2\n"])
    # pieces: each begins with the values that stand
    clock = "#0\n0!\n#1\n1!\n#2\n0!\n#3\n1!\n#4\n0!\n"
    same(
        prepared(HEAD + clock, "--scope", "s", "--pieces", "1", "--clock", "c", "c=tb.clk", names=("out.1.vcd", "out.2.vcd", "out.3.vcd")),
        ["#0\n0!\n#1\n1!\n", "#1\n1!\n#2\n0!\n#3\n1!\n", "#3\n1!\n#4\n0!\n#4\n"],
    )
    # what can't be picked
    same(prepared(HEAD, "--scope", "s", "c=tb.clock"), "vcdprep: no variable tb.clock\n")
    same(prepared(HEAD, "--scope", "s", "c=tb.dut.ram"), "vcdprep: tb.dut.ram has words alone: name one, as tb.dut.ram[10]\n")


if __name__ == "__main__":
    main()
