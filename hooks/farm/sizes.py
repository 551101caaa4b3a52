#!/usr/bin/env python3
"""Measures what docs/FARM.md says of sizes: `sizes.py COVD`. Records of fifo_test.py and of the benches by their bytes a
cycle or a sample; then a server over loopback, which takes 200, 1,000 and 4,096 tests of so many cycles, with its memory,
the time that an upload takes, and the time of a revision of its design."""

import hashlib
import socket
import subprocess
import sys
import time
from pathlib import Path

HERE = Path(__file__).resolve().parent
sys.path.insert(0, str(HERE.parent))
sys.dont_write_bytecode = True
from covclient import Client  # noqa: E402
from fifo_test import made  # noqa: E402

DESIGN = HERE.parent.parent / "crates/covd_rows/data/fifo.sv"
STEPS, CYCLES = (200, 1000, 4096), 1000


def memory_of(process):
    """Bytes of a process that are in memory, now and at most."""
    lines = Path(f"/proc/{process.pid}/status").read_text().splitlines()
    found = {line.split(":")[0]: int(line.split()[1]) * 1024 for line in lines if line.startswith(("VmRSS", "VmHWM"))}
    return found["VmRSS"], found["VmHWM"]


def records(cycles):
    for seed in range(1, STEPS[-1] + 1):
        yield made(seed, f"seed_{seed}", cycles)[0].encoded()


def free_address():
    with socket.create_server(("127.0.0.1", 0)) as listener:
        return f"127.0.0.1:{listener.getsockname()[1]}"


def served(covd, cycles):
    address = free_address()
    process = subprocess.Popen([covd, "serve", str(DESIGN), "--listen", address], stdout=subprocess.PIPE, text=True)
    try:
        process.stdout.readline()
        now, _ = memory_of(process)
        print(f"a server without tests: {now / 1e6:.1f} MB in memory")
        with Client(address) as client:
            spent, sent = 0.0, 0
            for count, encoded in enumerate(records(cycles), 1):
                begun = time.monotonic()
                client.upload(encoded)
                spent, sent = spent + time.monotonic() - begun, sent + len(encoded)
                if count in STEPS:
                    now, most = memory_of(process)
                    print(
                        f"{count} tests of {cycles} cycles, {sent / 1e6:.1f} MB of records: {now / 1e6:.1f} MB in memory, at most"
                        f" {most / 1e6:.1f}; an upload takes {1000 * spent / count:.2f} ms"
                    )
            begun = time.monotonic()
            client.revise(DESIGN.read_bytes())
            print(f"a revision of {STEPS[-1]} tests takes {time.monotonic() - begun:.1f} s")
    finally:
        process.kill()
        process.wait()


def main():
    for cycles in (100, 1000, 10000):
        size = len(made(1, "seed_1", cycles)[0].encoded())
        print(f"fifo_test.py, {cycles} cycles of four signals: {size} bytes, {size / cycles:.1f} a cycle")
    for name in ("axi", "stream", "queue", "cpu"):
        path = HERE.parent / "examples" / name / "test.rec"
        if path.exists():
            print(f"{name}: {path.stat().st_size} bytes, {hashlib.sha256(path.read_bytes()).hexdigest()[:8]}")
    if len(sys.argv) > 1:
        for cycles in (CYCLES, 50):
            served(sys.argv[1], cycles)


if __name__ == "__main__":
    main()
