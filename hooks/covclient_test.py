#!/usr/bin/env python3
"""Tests of covclient.py: against a server that goes by a script of bytes, worked out by hand from docs/FORMATS.md, and
against the real one, where `covd` is built and serves."""

import contextlib
import hashlib
import io
import os
import socket
import struct
import subprocess
import sys
import threading

HERE = os.path.dirname(os.path.abspath(__file__))
sys.path.insert(0, HERE)
import covclient  # noqa: E402

COVD = os.environ.get("COVD", os.path.join(HERE, "..", "crates", "covd", "out", "covd"))
DATA = os.path.join(HERE, "..", "crates", "covd", "data")

BYE = ("0e", "8a 0000000000000002")


def same(got, wanted):
    if got != wanted:
        sys.exit(f"covclient_test: got {got!r}\nwanted {wanted!r}")


def received(peer, size):
    taken = b""
    while len(taken) < size:
        part = peer.recv(size - len(taken))
        if not part:
            raise EOFError
        taken += part
    return taken


def serve(listener, script, heard):
    """Answers one connection by the script: pairs of the body that is wanted and the body of its reply."""
    peer, _ = listener.accept()
    with peer:
        for wanted, answer in script:
            try:
                (size,) = struct.unpack(">I", received(peer, 4))
                body = received(peer, size)
            except EOFError:
                return
            if body != bytes.fromhex(wanted):
                heard.append(f"heard {body.hex()}, wanted {wanted}")
                return
            # in two parts, so that the client has to put them together
            out = bytes.fromhex(answer)
            out = struct.pack(">I", len(out)) + out
            peer.sendall(out[:5])
            peer.sendall(out[5:])


def against(script, act):
    """What `act` gives with a client of a server that goes by the script."""
    heard = []
    with socket.create_server(("127.0.0.1", 0)) as listener:
        thread = threading.Thread(target=serve, args=(listener, script, heard))
        thread.start()
        try:
            with covclient.Client(f"127.0.0.1:{listener.getsockname()[1]}", 20) as covd:
                return act(covd)
        except covclient.Refused as refused:
            return str(refused)
        except covclient.Broken as broken:
            return f"broken: {broken}"
        finally:
            thread.join()
            same(heard, [])


def scripted():
    digest = hashlib.sha256(b"abc").hexdigest()
    begin = ("02 0000000000000003", "80 0000000000000000")
    piece = ("03 0000000000000000 616263", "80 0000000000000000")
    commit = "04" + digest
    # an upload that is new, one that is there, and one that the design changed under
    same(against([begin, piece, (commit, "82 0000000000000001"), BYE], lambda c: c.upload(b"abc")), (True, 1))
    same(against([begin, piece, (commit, "83 0000000000000002 0000000000000001"), BYE], lambda c: c.upload(b"abc")), (False, 1))
    moved = (commit, "d4 0000000000000002 0000000000000001")
    late = [(wanted, "80 0000000000000002") for wanted, _ in (begin, piece)]
    same(against([begin, piece, moved, *late, (commit, "82 0000000000000003"), ("0e", "8a 0000000000000003")],
                 lambda c: c.upload(b"abc")), (True, 3))
    # a refusal with its fields
    same(against([begin, piece, (commit, "c8 0000000000000000 04 0000000000000007"), BYE], lambda c: c.upload(b"abc")),
         "BadRecord code BadField number 7 at point 0")
    same(against([begin, piece, (commit, "cb 0000000000000000 01 0000000000000005 0000000000000006"), BYE],
                 lambda c: c.upload(b"abc")), "Full which bytes have 5 want 6 at point 0")
    # counts in two parts, read again since the history went on
    first = "84 {} 00000002 00000000 00 00 0000000000000007"
    second = "84 {} 00000002 00000001 01 01 0000000000000000"
    ask = ("05 00000000 67", "05 00000001 67")
    one, two = "0000000000000001", "0000000000000002"
    script = [(ask[0], first.format(one)), (ask[1], second.format(two)), (ask[0], first.format(two)), (ask[1], second.format(two)), BYE]
    same([tuple(row) for row in against(script, lambda c: c.counts("g"))], [(0, "CVGBIN", False, 7), (1, "ILLEGALBIN", True, 0)])
    # the other questions
    same(tuple(against([("06", "85 0000000000000002 0007a120 00 01 00000001 00000002"), BYE], lambda c: c.coverage())),
         (500000, False, True, 1, 2, 2))
    row = "0000000000000001 03 0000000000000005 0000000000000006" + "11" * 32 + "02 7431 01 75"
    same(against([("08 00000000", "86 0000000000000001 00000001" + row), BYE], lambda c: tuple(c.tests()[0])),
         (1, "FATAL", 5, 6, b"\x11" * 32, "t1", "u"))
    same(against([("09 00000000 02 7431 67", "84 0000000000000001 00000000"), BYE], lambda c: c.test_counts("t1", "g")), [])
    same(against([("0a", "87 0000000000000001 00000001 0000000000000009"), BYE], lambda c: [tuple(r) for r in c.rank()]), [(1, 9)])
    same(against([("0d 00000003", "88 0000000000000001 672f69"), BYE], lambda c: c.name_of(3)), "g/i")
    chunks = [("10 00000000 0000000000000000", "8b 0000000000000001 0000000000000003 6162"),
              ("10 00000000 0000000000000002", "8b 0000000000000001 0000000000000003 63"), BYE]
    same(against(chunks, lambda c: c.fetch(0)), b"abc")
    same(against([("01 0000000000000009", "d0 0000000000000000 0000000000000004"), BYE], lambda c: c.hello(9)), "Ahead have 4 at point 0")
    same(against([("0b 67", "89 0000000000000001"), ("0c 67", "89 0000000000000002"), BYE],
                 lambda c: (c.exclude("g"), c.include("g"))), (1, 2))
    revise = "0f" + digest
    same(against([begin, piece, (revise, "d2 0000000000000000 00000007 4f70656e"), BYE], lambda c: c.revise(b"abc")),
         "BadDesign at 7 kind Open at point 0")
    # what is no reply, and a server that breaks off
    same(against([("0a", "77 0000000000000000")], lambda c: c.rank()), "broken: a reply with the unknown tag 77")
    same(against([("0a", "80 0000000000000000 00")], lambda c: c.rank()), "broken: a reply Done with bytes too many")
    same(against([], lambda c: c.rank()).startswith("broken: the "), True)
    print("covclient: speaks as docs/FORMATS.md says")


def lines(address, *words):
    out, err = io.StringIO(), io.StringIO()
    with contextlib.redirect_stdout(out), contextlib.redirect_stderr(err):
        status = covclient.main([address, *words])
    return status, out.getvalue() + err.getvalue()


def real():
    """The real server, where it is built."""
    if not os.path.exists(COVD):
        print("covclient: no covd here, the real server was left out")
        return
    with socket.create_server(("127.0.0.1", 0)) as free:
        address = f"127.0.0.1:{free.getsockname()[1]}"
    design = os.path.join(DATA, "design.sv")
    server = subprocess.Popen([COVD, "serve", design, "--listen", address, "--seats", "2"], stdout=subprocess.PIPE, text=True)
    try:
        if server.stdout.readline() != f"listening {address}\n":
            print("covclient: this covd doesn't serve, the real server was left out")
            return
        record = os.path.join(DATA, "t1.rec")
        same(lines(address, "upload", record), (0, f"new {record} 1\n"))
        same(lines(address, "upload", record), (0, f"here {record} 1\n"))
        same(lines(address, "counts"), (0, "bin 0 CVGBIN 1 g/i/p/a\nbin 1 CVGBIN 2 g/i/p/b\n"))
        same(lines(address, "coverage", "g/i/p"), (0, "coverage 100.0000% 2/2 met 1\n"))
        same(lines(address, "exclude", "g/i/p/b"), (0, "excluded g/i/p/b 2\n"))
        same(lines(address, "coverage", "g/i/p"), (0, "coverage 100.0000% 1/1 met 2\n"))
        same(lines(address, "exclude", "g/i/p/b"), (1, "covclient: refused: AlreadyExcluded at point 2\n"))
        same(lines(address, "include", "g/i/p/b"), (0, "included g/i/p/b 3\n"))
        print("covclient: works with the real server")
    finally:
        server.kill()
        server.wait()


if __name__ == "__main__":
    scripted()
    real()
