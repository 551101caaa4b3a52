"""The test of fifo.c, written from Python: `python3 fifo.py fifo.rec`."""

import pathlib
import sys

sys.path.insert(0, str(pathlib.Path(__file__).resolve().parent.parent))
from covrec import Record

record = Record("fill_and_drain", seed=7, user="hooks")
push = record.signal("push", 1)
pop = record.signal("pop", 1)
clk = record.signal("clk", 1)
level = record.signal("level", 3)
fifo = record.instance("fifo", "fifo_cg")
have = 0
for step in "wwwwbrrrr.":
    pushes, pops = step in "wb", step in "rb"
    record.set(clk, 0)
    record.set(push, pushes)
    record.set(pop, pops)
    record.set(level, have)
    record.set(clk, 1)
    record.sample(fifo)
    have += pushes - pops
record.write(sys.argv[1])
