#!/usr/bin/env python3
"""Writes what bench/sessions measures with: requests.py FOLDER.

uploads    eight uploads of 8 MiB in pieces of 64 KiB, each with a Commit of its digest (the bytes are no record), and a Bye
coverage   100,000 requests for the coverage of g/i/p, and a Bye"""
import hashlib
import os
import struct
import sys

HERE = os.path.dirname(os.path.abspath(__file__))
sys.path.insert(0, os.path.join(HERE, "..", "..", "hooks"))
from covclient import PIECE, frame  # noqa: E402

CONTENTS = bytes(range(256)) * 32768

os.chdir(sys.argv[1])
pieces = b"".join(frame(b"\x03" + struct.pack(">Q", at) + CONTENTS[at : at + PIECE]) for at in range(0, len(CONTENTS), PIECE))
upload = frame(b"\x02" + struct.pack(">Q", len(CONTENTS))) + pieces + frame(b"\x04" + hashlib.sha256(CONTENTS).digest())
with open("uploads", "wb") as file:
    file.write(upload * 8 + frame(b"\x0e"))
with open("coverage", "wb") as file:
    file.write(frame(b"\x06g/i/p") * 100_000 + frame(b"\x0e"))
