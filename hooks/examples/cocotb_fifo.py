"""Coverage under cocotb: a monitor of the queue in hooks/examples/queue writes a record for the design text
crates/covd_rows/data/fifo.sv, over the Python writer.

With cocotb and Icarus Verilog:

    make -f $(cocotb-config --makefiles)/Makefile.sim SIM=icarus TOPLEVEL_LANG=verilog TOPLEVEL=queue \\
        MODULE=cocotb_fifo VERILOG_SOURCES=$PWD/hooks/examples/queue/queue.sv PYTHONPATH=$PWD/hooks/examples

COV_RECORD names the record's file, fifo.rec where it isn't said; the test's id and seed are those of the run. Without cocotb,
`python3 cocotb_fifo.py fifo.rec` writes the record of the steps of fifo.py.
"""

import os
import random
import sys
from pathlib import Path

sys.path.insert(0, str(Path(__file__).resolve().parent.parent))
from covrec import ERROR, OK, Record  # noqa: E402

try:
    import cocotb
    from cocotb.clock import Clock
    from cocotb.triggers import FallingEdge, RisingEdge
except ImportError:
    cocotb = None


class FifoCover:
    """What the monitor knows of coverage: the tables of the design text, and a sample for each cycle."""

    def __init__(self, test_id, seed=0, user=""):
        self.record = Record(test_id, seed=seed, user=user)
        self.push = self.record.signal("push", 1)
        self.pop = self.record.signal("pop", 1)
        self.clk = self.record.signal("clk", 1)
        self.level = self.record.signal("level", 3)
        self.fifo = self.record.instance("fifo", "fifo_cg")

    def cycle(self, push, pop, level):
        """A rising edge of the clock, with the values before it; None is one with an x or z bit."""
        for signal, value in ((self.clk, 0), (self.push, push), (self.pop, pop), (self.level, level), (self.clk, 1)):
            self.record.set(signal, value)
        self.record.sample(self.fifo)


def known(handle):
    """The value of a signal as a number, or None where it has an x or z bit."""
    value = handle.value
    return int(value) if value.is_resolvable else None


async def monitor(dut, cover, path, every=1000):
    """Samples at each rising edge, and writes what there is every so many cycles, so that a test that is killed has left
    it. What is read right behind the trigger is as it was before the edge."""
    cycles = 0
    while True:
        await RisingEdge(dut.clk)
        cover.cycle(known(dut.push), known(dut.pop), known(dut.level))
        cycles += 1
        if cycles % every == 0:
            cover.record.write(path)


async def random_traffic(dut):
    """Pushes and pops at random for 500 cycles, and compares the level with a model's; whether it was right."""
    is_right, have = True, 0
    dut.push.value, dut.pop.value, dut.rst.value = 0, 0, 1
    await FallingEdge(dut.clk)
    await FallingEdge(dut.clk)
    dut.rst.value = 0
    for _ in range(500):
        push, pop = random.random() < 0.5, random.random() < 0.5
        dut.push.value, dut.pop.value = int(push), int(pop)
        setattr(getattr(dut, "in"), "value", random.randrange(256))
        await FallingEdge(dut.clk)
        have += (push and have < 4) - (pop and have > 0)
        is_right &= known(dut.level) == have
    return is_right


if cocotb is not None:

    @cocotb.test()
    async def covered_traffic(dut):
        path = os.environ.get("COV_RECORD", "fifo.rec")
        seed = int(os.environ.get("RANDOM_SEED", "1"))
        random.seed(seed)
        cover = FifoCover(os.environ.get("COV_TEST", f"cocotb_{seed}"), seed, "cocotb")
        clock = Clock(dut.clk, 10, "ns")
        cocotb.start_soon(clock.start())
        cocotb.start_soon(monitor(dut, cover, path))
        is_right = await random_traffic(dut)
        cover.record.tell(outcome=OK if is_right else ERROR, time=5000)
        cover.record.write(path)
        assert is_right


def played(steps, path):
    """The record of the steps of fifo.py."""
    cover, have = FifoCover("fill_and_drain", 7, "hooks"), 0
    for step in steps:
        push, pop = step in "wb", step in "rb"
        cover.cycle(int(push), int(pop), have)
        have += push - pop
    cover.record.write(path)


if __name__ == "__main__":
    played("wwwwbrrrr.", sys.argv[1])
