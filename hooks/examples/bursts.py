"""The test of bursts.c, written from Python: `python3 bursts.py calls.rec`."""

import pathlib
import sys

sys.path.insert(0, str(pathlib.Path(__file__).resolve().parent.parent))
from covrec import Record

record = Record("four_bursts")
bursts = record.instance("bursts", "burst_cg", arguments=[(4, False), (1, False)])
for beats, failed in [(1, 0), (4, 0), (8, 1), (None, 0)]:
    record.sample(bursts, beats, failed)
record.write(sys.argv[1])
