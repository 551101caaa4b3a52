#!/usr/bin/env python3
"""Talks to a running `covd serve`: uploads records, asks for counts and coverage, excludes nodes, revises the design.

    covclient.py HOST:PORT upload FILE ..          admit records; a record that is there already is no error
    covclient.py HOST:PORT counts [PATH]           every bin under a node with its count
    covclient.py HOST:PORT coverage [PATH]         the coverage of a node
    covclient.py HOST:PORT tests                   the tests in order of admission
    covclient.py HOST:PORT testcounts ID [PATH]    what one test counts
    covclient.py HOST:PORT illegal | rank          illegal bins that were hit; the tests by what each adds
    covclient.py HOST:PORT name BIN                the path of a bin
    covclient.py HOST:PORT fetch PLACE FILE        the record that was admitted at this place, from 0
    covclient.py HOST:PORT exclude | include PATH  take a node out of coverage, or put it back
    covclient.py HOST:PORT revise FILE             take the design of another text with the same tables
    covclient.py HOST:PORT hello [POINT]           how many bins there are, where the history has come to this point

Each line of output ends with the point of the history at which it holds, where that is one point. Without PATH the root is
meant. The exit status is 0, or 1 where the server refuses, or 2 where it can't be reached or breaks off.

In Python:

    from covclient import Client
    with Client("127.0.0.1:7000") as covd:
        covd.upload(open("t1.rec", "rb").read())
        print(covd.coverage("").millionths)

The bytes are those of docs/FORMATS.md, "Frames and messages".
"""

import argparse
import hashlib
import socket
import struct
import sys
from collections import namedtuple

LONGEST_BODY = 1_048_640
PIECE = 65_536
# how often a list is read again because the history went on while it was read, and an upload because the design changed
AGAIN = 20

KINDS = ("CVGBIN", "ILLEGALBIN", "IGNOREBIN", "DEFAULTBIN")
OUTCOMES = ("OK", "WARNING", "ERROR", "FATAL")
AMOUNTS = ("tests", "bytes", "entries", "history")
FAULTS = {1: "Short", 2: "BadMagic", 3: "BadVersion", 4: "BadField", 5: "TooManyEvents", 6: "Trailing"}

# the replies with fields of fixed width: the name, the form of the fields, and their names
PLAIN = {
    0x80: ("Done", "", ()),
    0x81: ("Welcome", "I", ("bins",)),
    0x82: ("New", "", ()),
    0x83: ("Here", "Q", ("first",)),
    0x85: ("CoverageIs", "I??II", ("millionths", "met", "excluded", "covered", "bins")),
    0x89: ("Changed", "", ()),
    0x8A: ("Farewell", "", ()),
    0xC0: ("BadMessage", "I", ("at",)),
    0xC1: ("NoUpload", "", ()),
    0xC2: ("StageBusy", "", ()),
    0xC3: ("TooLong", "Q", ("n",)),
    0xC4: ("Outside", "QQ", ("offset", "len")),
    0xC5: ("Differs", "Q", ("at",)),
    0xC6: ("Missing", "Q", ("at",)),
    0xC7: ("DigestDiffers", "32s", ("got",)),
    0xC8: ("BadRecord", "BQ", ("code", "number")),
    0xC9: ("WrongShape", "I", ("at",)),
    0xCA: ("IdTaken", "32s", ("digest",)),
    0xCB: ("Full", "BQQ", ("which", "have", "want")),
    0xCC: ("NoSuchPath", "", ()),
    0xCD: ("AlreadyExcluded", "", ()),
    0xCE: ("NotExcluded", "", ()),
    0xCF: ("NoSuchTest", "", ()),
    0xD0: ("Ahead", "Q", ("have",)),
    0xD1: ("Memory", "", ()),
    0xD3: ("ShapeDiffers", "I", ("at",)),
    0xD4: ("Moved", "Q", ("since",)),
    0xD5: ("Stopped", "", ()),
    0xD6: ("ReadOnly", "", ()),
}

Count = namedtuple("Count", "bin kind excluded count")
Coverage = namedtuple("Coverage", "millionths met excluded covered bins point")
Test = namedtuple("Test", "point status seed time digest id user")
Rank = namedtuple("Rank", "test gain")


class Broken(Exception):
    """The server can't be reached, broke off, or sent what is no reply."""


class Refused(Exception):
    """What the server refuses: the name of its reply, the reply's fields, and the point at which it holds."""

    def __init__(self, name, point, **fields):
        self.name = name
        self.point = point
        self.fields = fields
        said = "".join(f" {key} {_shown(value)}" for key, value in fields.items())
        super().__init__(f"{name}{said} at point {point}")


def _shown(value):
    return value.hex() if isinstance(value, bytes) else value


class Reply(namedtuple("Reply", "name point fields")):
    """One reply: its name, its point, and its fields by name."""


class _Fields:
    """Fields of a body, read from the front."""

    def __init__(self, body, at):
        self.body = body
        self.at = at

    def take(self, form):
        form = struct.Struct(">" + form)
        if self.at + form.size > len(self.body):
            raise Broken("a reply ends too early")
        values = form.unpack_from(self.body, self.at)
        self.at += form.size
        return values

    def text(self):
        (size,) = self.take("B")
        return self.take(f"{size}s")[0].decode("latin-1")

    def rest(self):
        taken = self.body[self.at :]
        self.at = len(self.body)
        return taken

    def more(self):
        return self.at < len(self.body)


def _count_rows(fields):
    (total,) = fields.take("I")
    rows = []
    while fields.more():
        number, kind, excluded, count = fields.take("IB?Q")
        rows.append(Count(number, KINDS[kind] if kind < len(KINDS) else str(kind), excluded, count))
    return {"total": total, "rows": rows}


def _test_rows(fields):
    (total,) = fields.take("I")
    rows = []
    while fields.more():
        point, status, seed, time, digest = fields.take("QBQQ32s")
        outcome = OUTCOMES[status] if status < len(OUTCOMES) else str(status)
        rows.append(Test(point, outcome, seed, time, digest, fields.text(), fields.text()))
    return {"total": total, "rows": rows}


def _rank_rows(fields):
    rows = []
    while fields.more():
        rows.append(Rank(*fields.take("IQ")))
    return {"rows": rows}


def _design_fault(fields):
    (at,) = fields.take("I")
    return {"at": at, "kind": fields.rest().decode("latin-1")}


LONG = {
    0x84: ("Rows", _count_rows),
    0x86: ("TestRows", _test_rows),
    0x87: ("RankRows", _rank_rows),
    0x88: ("PathIs", lambda fields: {"path": fields.rest().decode("latin-1")}),
    0x8B: ("Chunk", lambda fields: {"len": fields.take("Q")[0], "bytes": fields.rest()}),
    0xD2: ("BadDesign", _design_fault),
}


def read_reply(body):
    """The reply that a body spells."""
    fields = _Fields(body, 0)
    tag, point = fields.take("BQ")
    if tag in PLAIN:
        name, form, names = PLAIN[tag]
        told = dict(zip(names, fields.take(form)))
        if name == "BadRecord":
            told["code"] = FAULTS.get(told["code"], told["code"])
        if name == "Full":
            told["which"] = AMOUNTS[told["which"]] if told["which"] < len(AMOUNTS) else told["which"]
    elif tag in LONG:
        name, read = LONG[tag]
        told = read(fields)
    else:
        raise Broken(f"a reply with the unknown tag {tag:02x}")
    if fields.more():
        raise Broken(f"a reply {name} with bytes too many")
    return Reply(name, point, told)


def frame(body):
    """The body with its length before it."""
    if not 1 <= len(body) <= LONGEST_BODY:
        raise ValueError(f"a body of {len(body)} bytes")
    return struct.pack(">I", len(body)) + body


def path_bytes(path):
    """A path as bytes."""
    spelled = path.encode("latin-1")
    if any(not 0x20 <= byte <= 0x7E for byte in spelled):
        raise ValueError(f"no path: {path!r}")
    return spelled


def split_address(address):
    """Host and port of HOST:PORT; an IPv6 host may stand in brackets."""
    host, colon, port = address.rpartition(":")
    if not colon or not port.isdigit():
        raise ValueError(f"no address: {address!r}, an address is HOST:PORT")
    return host.strip("[]") or "127.0.0.1", int(port)


class Client:
    """One connection. What it has seen never falls back: each reply holds at a point that is no earlier than the one before."""

    def __init__(self, address, timeout=None):
        try:
            self.socket = socket.create_connection(split_address(address), timeout)
            self.socket.setsockopt(socket.IPPROTO_TCP, socket.TCP_NODELAY, 1)
        except OSError as error:
            raise Broken(f"{address}: {error}") from None
        self.point = 0

    def __enter__(self):
        return self

    def __exit__(self, *what):
        self.close()

    # ---- frames

    def _read(self, size):
        parts = []
        while size:
            try:
                part = self.socket.recv(min(size, 1 << 20))
            except OSError as error:
                raise Broken(f"the connection failed: {error}") from None
            if not part:
                raise Broken("the server closed the connection")
            parts.append(part)
            size -= len(part)
        return b"".join(parts)

    def ask(self, tag, *fields):
        """Sends one request and reads its reply."""
        try:
            self.socket.sendall(frame(bytes([tag]) + b"".join(fields)))
        except OSError as error:
            raise Broken(f"the connection failed: {error}") from None
        (size,) = struct.unpack(">I", self._read(4))
        if not 1 <= size <= LONGEST_BODY:
            raise Broken(f"a reply of {size} bytes")
        reply = read_reply(self._read(size))
        if reply.point < self.point:
            raise Broken(f"the point fell from {self.point} to {reply.point}")
        self.point = reply.point
        return reply

    def _want(self, names, tag, *fields):
        reply = self.ask(tag, *fields)
        if reply.name not in names:
            raise Refused(reply.name, reply.point, **reply.fields)
        return reply

    def close(self):
        """Says Bye, so that the server needn't wait for more, and ends the connection."""
        try:
            self.ask(0x0E)
        except Broken:
            pass
        self.socket.close()

    # ---- questions

    def hello(self, point=0):
        """How many bins the design has, where the history has come to this point."""
        return self._want(("Welcome",), 0x01, struct.pack(">Q", point)).fields["bins"]

    def _listed(self, name, tag, *fields):
        """All rows of a list at one point. It is read again where the history went on between two parts of it."""
        for _ in range(AGAIN):
            rows, point = [], None
            while True:
                reply = self._want((name,), tag, struct.pack(">I", len(rows)), *fields)
                if point not in (None, reply.point):
                    break
                point = reply.point
                rows += reply.fields["rows"]
                if len(rows) >= reply.fields["total"]:
                    return rows
                if not reply.fields["rows"]:
                    raise Broken("a list without end")
        raise Broken("the history goes on faster than the list is read")

    def counts(self, path=""):
        """The counts of all bins under a node."""
        return self._listed("Rows", 0x05, path_bytes(path))

    def test_counts(self, test, path=""):
        """What one test counts under a node."""
        name = test.encode("latin-1")
        return self._listed("Rows", 0x09, struct.pack(">B", len(name)), name, path_bytes(path))

    def illegal(self):
        """The illegal bins that were hit."""
        return self._listed("Rows", 0x07)

    def tests(self):
        """The tests in order of admission."""
        return self._listed("TestRows", 0x08)

    def coverage(self, path=""):
        """The coverage of a node, in millionths."""
        reply = self._want(("CoverageIs",), 0x06, path_bytes(path))
        return Coverage(point=reply.point, **reply.fields)

    def rank(self):
        """The tests by what each adds to those before: places in the order of admission, with the gain."""
        return self._want(("RankRows",), 0x0A).fields["rows"]

    def name_of(self, number):
        """The path of a bin."""
        return self._want(("PathIs",), 0x0D, struct.pack(">I", number)).fields["path"]

    def fetch(self, place):
        """The bytes of the record that was admitted at this place, from 0."""
        taken = b""
        while True:
            reply = self._want(("Chunk",), 0x10, struct.pack(">IQ", place, len(taken)))
            taken += reply.fields["bytes"]
            if len(taken) >= reply.fields["len"]:
                return taken
            if not reply.fields["bytes"]:
                raise Broken("a record without end")

    # ---- changes

    def exclude(self, path):
        """Takes a node out of coverage. The point at which it is out."""
        return self._want(("Changed",), 0x0B, path_bytes(path)).point

    def include(self, path):
        """Puts it back."""
        return self._want(("Changed",), 0x0C, path_bytes(path)).point

    def _stage(self, contents, progress):
        self._want(("Done",), 0x02, struct.pack(">Q", len(contents)))
        for at in range(0, len(contents), PIECE):
            piece = contents[at : at + PIECE]
            self._want(("Done",), 0x03, struct.pack(">Q", at), piece)
            if progress:
                progress(at + len(piece), len(contents))

    def _sent(self, names, tag, contents, progress):
        """Uploads and closes with this request, again where the design was revised meanwhile."""
        digest = hashlib.sha256(contents).digest()
        for turn in range(AGAIN):
            self._stage(contents, progress)
            reply = self.ask(tag, digest)
            if reply.name in names:
                return reply
            if reply.name != "Moved" or turn == AGAIN - 1:
                raise Refused(reply.name, reply.point, **reply.fields)

    def upload(self, contents, progress=None):
        """Admits a record. Whether it is new, and the point at which it was admitted. `progress` is called with the bytes
        that were sent and all bytes."""
        reply = self._sent(("New", "Here"), 0x04, contents, progress)
        return reply.name == "New", reply.fields.get("first", reply.point)

    def revise(self, text, progress=None):
        """Takes the design of another text. The point from which on it holds."""
        return self._sent(("Changed",), 0x0F, text, progress).point


# ---- command line


def _progress(name):
    """Shows how much of a file was sent, on standard error, where that is a terminal."""
    if not sys.stderr.isatty():
        return None

    def show(done, whole):
        end = "\n" if done == whole else ""
        print(f"\r{name} {100 * done // whole:3}%", end=end, file=sys.stderr, flush=True)

    return show


def _percent(millionths):
    return f"{millionths // 10_000}.{millionths % 10_000:04}%"


def _file(name):
    with open(name, "rb") as file:
        return file.read()


def _print_counts(covd, rows):
    for row in rows:
        out = " excluded" if row.excluded else ""
        print(f"bin {row.bin} {row.kind} {row.count} {covd.name_of(row.bin)}{out}")


def _upload(covd, words):
    for name in words.files:
        new, point = covd.upload(_file(name), _progress(name))
        print(f"{'new' if new else 'here'} {name} {point}")


def _coverage(covd, words):
    row = covd.coverage(words.path)
    met = "met" if row.met else "miss"
    out = " excluded" if row.excluded else ""
    print(f"coverage {_percent(row.millionths)} {row.covered}/{row.bins} {met}{out} {row.point}")


def _tests(covd, _words):
    for row in covd.tests():
        user = f" {row.user}" if row.user else ""
        print(f"test {row.point} {row.status} {row.id} seed {row.seed} time {row.time} sha256 {row.digest.hex()}{user}")


def _rank(covd, _words):
    tests = covd.tests()
    for row in covd.rank():
        name = tests[row.test].id if row.test < len(tests) else row.test
        print(f"rank {name} {row.gain}")


def _fetch(covd, words):
    with open(words.file, "wb") as file:
        file.write(covd.fetch(words.place))


def _parser():
    parser = argparse.ArgumentParser(prog="covclient.py", description="talks to a running covd serve")
    parser.add_argument("address", metavar="HOST:PORT")
    parser.add_argument("--timeout", type=float, help="give up after so many seconds without an answer")
    commands = parser.add_subparsers(dest="command", required=True)

    def command(name, act, *places, **extra):
        it = commands.add_parser(name)
        for place in places:
            it.add_argument(place, **extra)
        it.set_defaults(act=act)
        return it

    path = {"nargs": "?", "default": ""}
    command("upload", _upload, "files", nargs="+")
    command("counts", lambda covd, words: _print_counts(covd, covd.counts(words.path)), "path", **path)
    command("coverage", _coverage, "path", **path)
    command("tests", _tests)
    one = command("testcounts", lambda covd, words: _print_counts(covd, covd.test_counts(words.id, words.path)), "id")
    one.add_argument("path", **path)
    command("illegal", lambda covd, words: _print_counts(covd, covd.illegal()))
    command("rank", _rank)
    command("name", lambda covd, words: print(covd.name_of(words.bin)), "bin", type=int)
    fetch = command("fetch", _fetch, "place", type=int)
    fetch.add_argument("file")
    command("exclude", lambda covd, words: print(f"excluded {words.path} {covd.exclude(words.path)}"), "path")
    command("include", lambda covd, words: print(f"included {words.path} {covd.include(words.path)}"), "path")
    command("revise", lambda covd, words: print(f"revised {covd.revise(_file(words.file), _progress(words.file))}"), "file")
    hello = command("hello", lambda covd, words: print(f"bins {covd.hello(words.point)} {covd.point}"))
    hello.add_argument("point", nargs="?", type=int, default=0)
    return parser


def main(words):
    parsed = _parser().parse_args(words)
    try:
        with Client(parsed.address, parsed.timeout) as covd:
            parsed.act(covd, parsed)
    except Refused as refused:
        print(f"covclient: refused: {refused}", file=sys.stderr)
        return 1
    except (Broken, OSError, ValueError) as error:
        print(f"covclient: {error}", file=sys.stderr)
        return 2
    return 0


if __name__ == "__main__":
    sys.exit(main(sys.argv[1:]))
