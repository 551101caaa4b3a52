"""Writes test records of Tiskrona, after docs/FORMATS.md, versions 1 and 2.

    record = Record("t1")
    v = record.signal("v", 8)
    i = record.instance("i", "g")
    record.set(v, 5)
    record.sample(i)
    record.write("t1.rec")

Signals and instances are announced in the order of the design text, before the first event. A value of None is one with
an x or z bit. A signal is Unknown until it gets a value, so say the first values of all. A record is of version 2 where
an instance has arguments. What doesn't fit is refused by ValueError.
"""

import os
import struct

MOST_SIGNALS, MOST_INSTANCES, MOST_ARGUMENTS = 4096, 1024, 16
MOST_EVENTS, LONGEST = 1048576, 8388608
OK, WARNING, ERROR, FATAL = 0, 1, 2, 3


def _text(text, least, most, lowest):
    spelled = text.encode("ascii")
    if not least <= len(spelled) <= most or any(not lowest <= byte <= 0x7E for byte in spelled):
        raise ValueError(f"not {least} to {most} bytes from {lowest:02X} to 7E hexadecimal: {text!r}")
    return struct.pack(">H", len(spelled)) + spelled


def _shape(width, signed):
    if not 1 <= width <= 64:
        raise ValueError(f"a width is 1 to 64: {width}")
    return struct.pack(">BB", width, bool(signed))


class Record:
    """The record of one test."""

    def __init__(self, test_id, outcome=OK, seed=0, time=0, user=""):
        self._id = _text(test_id, 1, 255, 0x21)
        self._outcome, self._seed, self._time, self._user = OK, 0, 0, _text("", 0, 255, 0x20)
        self.tell(outcome, seed, time, user)
        self._signals, self._widths, self._last = [], [], []
        self._instances = []
        self._events, self._count = bytearray(), 0

    def tell(self, outcome=None, seed=None, time=None, user=None):
        """How the test ended, its seed, the time in the units of whoever reads it, and who ran it; what isn't said stays."""
        if outcome not in (None, OK, WARNING, ERROR, FATAL):
            raise ValueError(f"an outcome is 0 to 3: {outcome}")
        for number in (seed, time):
            if number is not None and not 0 <= number < 1 << 64:
                raise ValueError(f"a seed and a time have 64 bits: {number}")
        self._outcome = self._outcome if outcome is None else outcome
        self._seed = self._seed if seed is None else seed
        self._time = self._time if time is None else time
        self._user = self._user if user is None else _text(user, 0, 255, 0x20)

    def _announcing(self, have, most):
        if self._count:
            raise ValueError("signals and instances are announced before the first event")
        if have == most:
            raise ValueError(f"there are at most {most}")

    def signal(self, name, width, signed=False):
        """The number of the next signal of the design, from 0."""
        self._announcing(len(self._signals), MOST_SIGNALS)
        self._signals.append(_text(name, 1, 1024, 0x21) + _shape(width, signed))
        self._widths.append(width)
        self._last.append(None)
        return len(self._signals) - 1

    def instance(self, name, group, arguments=()):
        """The number of the next instance of the design, from 0; each argument of its function `sample` is a pair of
        width and sign."""
        self._announcing(len(self._instances), MOST_INSTANCES)
        if len(arguments) > MOST_ARGUMENTS:
            raise ValueError(f"an instance has at most {MOST_ARGUMENTS} arguments")
        names = _text(name, 1, 1024, 0x21) + _text(group, 1, 1024, 0x21)
        shapes = [_shape(width, signed) for width, signed in arguments]
        self._instances.append((names, shapes, [width for width, _ in arguments]))
        return len(self._instances) - 1

    def _known(self, number, have):
        if not 0 <= number < have:
            raise ValueError(f"there is no such signal or instance: {number}")

    def _event(self, tag, number):
        if self._count == MOST_EVENTS:
            raise ValueError(f"there are at most {MOST_EVENTS} events")
        self._count += 1
        self._events += struct.pack(">BH", tag, number)

    def _value(self, width, value):
        if value is None:
            self._events.append(0)
        else:
            self._events += struct.pack(">BQ", 1, value & ((1 << width) - 1))

    def set(self, signal, value):
        """A signal gets a value, of which the low bits count; where it has that value already, nothing is written."""
        self._known(signal, len(self._signals))
        value = value if value is None else value & ((1 << self._widths[signal]) - 1)
        if value == self._last[signal]:
            return
        self._event(1, signal)
        self._value(self._widths[signal], value)
        self._last[signal] = value

    def sample(self, instance, *values):
        """An instance is sampled with the values that the signals have now, and with those of its arguments."""
        self._known(instance, len(self._instances))
        if len(values) != len(self._instances[instance][2]):
            raise ValueError("a sample has a value for each argument")
        self._event(2, instance)
        for width, value in zip(self._instances[instance][2], values):
            self._value(width, value)

    def encoded(self):
        """The bytes of the record."""
        version = 2 if any(shapes for _, shapes, _ in self._instances) else 1
        out = bytearray(b"CVRC" + struct.pack(">H", version) + self._id)
        out += struct.pack(">BQQ", self._outcome, self._seed, self._time) + self._user
        out += struct.pack(">H", len(self._signals)) + b"".join(self._signals)
        out += struct.pack(">H", len(self._instances))
        for names, shapes, _ in self._instances:
            out += names
            if version == 2:
                out.append(len(shapes))
            out += b"".join(shapes)
        out += struct.pack(">I", self._count) + self._events
        if len(out) > LONGEST:
            raise ValueError(f"a record has at most {LONGEST} bytes: {len(out)}")
        return bytes(out)

    def write(self, path):
        """Writes what there is up to now to a file, as a whole record: a test that is killed later has left that. The file
        is written beside its place and put there when it is whole."""
        encoded, beside = self.encoded(), f"{path}.part"
        with open(beside, "wb") as file:
            file.write(encoded)
        os.replace(beside, path)
