#!/usr/bin/env python3
"""A test of a night without a simulator: a queue of four entries under random pushes and pops, for the design text
crates/covd_rows/data/fifo.sv. `fifo_test.py SEED ID RECORD [CYCLES]`."""

import random
import sys
from pathlib import Path

sys.path.insert(0, str(Path(__file__).resolve().parent.parent))
sys.dont_write_bytecode = True
from covrec import OK, Record  # noqa: E402


def made(seed, name, cycles):
    """The record of one test, and how often the queue was full, which the covergroup counts as well."""
    chance = random.Random(seed)
    record = Record(name, outcome=OK, seed=seed, time=10 * cycles, user="farm")
    push, pop = record.signal("push", 1), record.signal("pop", 1)
    clk, level = record.signal("clk", 1), record.signal("level", 3)
    fifo = record.instance("fifo", "fifo_cg")
    have = full = 0
    for _ in range(cycles):
        pushes, pops = chance.random() < 0.5 and have < 4, chance.random() < 0.5 and have > 0
        for signal, value in ((clk, 0), (push, pushes), (pop, pops), (level, have), (clk, 1)):
            record.set(signal, int(value))
        record.sample(fifo)
        full += have == 4
        have += pushes - pops
    return record, full


if __name__ == "__main__":
    SEED, NAME, PATH = sys.argv[1:4]
    made(int(SEED), NAME, int(sys.argv[4]) if len(sys.argv) > 4 else 100)[0].write(PATH)
