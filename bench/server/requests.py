#!/usr/bin/env python3
"""Writes the design and the requests that bench/server measures with: requests.py FOLDER.

design.sv      an instance with sixteen coverpoints of 64 bins each
coverage       a thousand requests for the coverage of these points in turn
upload.C.K     the requests of client K of C, of 1, 2 or 4: Begin, 16 pieces and Commit for each of its 24 / C records of
               1 MiB, which have names of their own"""
import hashlib
import os
import random
import struct
import sys

HERE = os.path.dirname(os.path.abspath(__file__))
sys.path.insert(0, os.path.join(HERE, "..", "..", "hooks"))
from covclient import PIECE, frame  # noqa: E402
from covrec import Record  # noqa: E402

NAMES = [f"v{number}" for number in range(16)]
RECORDS = 24
SIZE = 1 << 20
# sixteen Set events of 12 bytes and a Sample of 3
ROUND = 12 * len(NAMES) + 3


def design():
    points = "".join(f"  {it}_p: coverpoint {it} {{ bins b[64] = {{[0:255]}}; }}\n" for it in NAMES)
    return f"bit [7:0] {', '.join(NAMES)};\ncovergroup g;\n{points}endgroup\ng i = new;\n"


def record(number):
    """A record of at most 1 MiB: in each round each variable gets a value, and the instance is sampled."""
    draw = random.Random(number)
    made = Record(f"test{number:04}", seed=number)
    signals = [made.signal(it, 8) for it in NAMES]
    instance = made.instance("i", "g")
    for _ in range((SIZE - len(made.encoded())) // ROUND):
        for it in signals:
            made.set(it, draw.getrandbits(8))
        made.sample(instance)
    return made.encoded()


def upload(contents):
    requests = frame(b"\x02" + struct.pack(">Q", len(contents)))
    for at in range(0, len(contents), PIECE):
        requests += frame(b"\x03" + struct.pack(">Q", at) + contents[at : at + PIECE])
    return requests + frame(b"\x04" + hashlib.sha256(contents).digest())


def main():
    os.chdir(sys.argv[1])
    with open("design.sv", "w") as file:
        file.write(design())
    with open("coverage", "wb") as file:
        paths = [f"g/i/{NAMES[number % len(NAMES)]}_p" for number in range(1000)]
        file.write(b"".join(frame(b"\x06" + it.encode()) for it in paths))
    uploads = [upload(record(number)) for number in range(RECORDS)]
    for clients in 1, 2, 4:
        for client in range(clients):
            with open(f"upload.{clients}.{client}", "wb") as file:
                file.write(b"".join(uploads[client::clients]))


main()
