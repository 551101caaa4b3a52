#!/usr/bin/env python3
"""Picks variables of a value change dump under names of one scope, for `covd record`.

    vcdprep.py IN OUT --scope SCOPE NAME=PATH .. [--no-gaps] [--pieces N --clock NAME]

PATH is SCOPES.NAME of a variable, with a word or a bit [n] or a part [high:low] behind it where only that is wanted. Where
the bits of a vector were dumped one by one, the vector's name joins them. VHDL's nine values become four: U, W and - are x,
L is 0, H is 1. With --no-gaps what stands from $dumpoff to $dumpon is left out. With --pieces N a further file OUT.2, OUT.3 ..
(before OUT's suffix) begins after each N rising edges of the clock; its first step has all values, so that the samples of
all pieces are those of the whole.
"""

import argparse
import os
import re
import sys

FOUR = {"0": "0", "1": "1", "x": "x", "z": "z", "u": "x", "w": "x", "-": "x", "l": "0", "h": "1"}
SELECT = re.compile(r"\[(-?\d+)(?::(-?\d+))?\]")
BLANKS = " \t\n\r"


class Refused(Exception):
    """What the user can mend."""


def four_values(digits):
    """The digits with x and z in lower case, and VHDL's values as one of four."""
    try:
        return "".join(FOUR[digit] for digit in digits.lower())
    except KeyError as digit:
        raise Refused(f"no value: {digit}") from None


def extended(digits, width):
    """The digits at a width."""
    if len(digits) >= width:
        return digits[len(digits) - width :]
    return ("0" if digits[0] == "1" else digits[0]) * (width - len(digits)) + digits


class Variable:
    """A declared variable: its code, its bits from high to low, and the word of an array that it is."""

    def __init__(self, code, width, selects):
        self.code = code
        self.width = width
        self.index = None
        self.high, self.low = width - 1, 0
        for high, low in selects:
            if low is None:
                self.index = high
            else:
                self.high, self.low = high, low

    def places(self, high, low):
        """Where bits stand in the digits, from the left."""
        step = 1 if self.high >= self.low else -1
        first, last = (self.high - high) * step, (self.high - low) * step
        if not 0 <= first <= last < self.width:
            raise Refused(f"no bits [{high}:{low}] of [{self.high}:{self.low}]")
        return first, last + 1


class Dump:
    """The words of a dump: declarations at once, steps as they come."""

    def __init__(self, source):
        self.words = (word for line in source for word in line.split())
        self.widths = {}
        self.variables = {}
        self.scale = []
        self.read_declarations()

    def until_end(self):
        """The words up to $end."""
        words = []
        for word in self.words:
            if word == "$end":
                return words
            words.append(word)
        raise Refused("the dump ends in a declaration")

    def read_declarations(self):
        scopes = []
        for word in self.words:
            if word == "$enddefinitions":
                self.until_end()
                return
            words = self.until_end()
            if word == "$scope":
                scopes.append(words[1])
            elif word == "$upscope":
                scopes.pop()
            elif word == "$timescale":
                self.scale = words
            elif word == "$var":
                self.declare(scopes, words)
        raise Refused("the dump has no $enddefinitions")

    def declare(self, scopes, words):
        code, reference = words[2], "".join(words[3:])
        width = self.widths.setdefault(code, int(words[1]))
        name = reference.split("[", 1)[0]
        selects = [
            (int(high), None if low == "" else int(low))
            for high, low in SELECT.findall(reference[len(name) :])
        ]
        path = ".".join(scopes + [name])
        self.variables.setdefault(path, []).append(Variable(code, width, selects))

    def steps(self, no_gaps):
        """Each time with the changes at it, code by code; the last change counts."""
        time, changes, begun, gap = 0, {}, False, False
        for word in self.words:
            first = word[0]
            if first == "#":
                if begun and int(word[1:]) != time:
                    yield time, changes
                    changes = {}
                time, begun = int(word[1:]), True
            elif first in "bB":
                code = next(self.words)
                if not gap:
                    changes[code], begun = four_values(word[1:]), True
            elif first in "rRsS":
                next(self.words)
            elif word == "$comment":
                self.until_end()
            elif word == "$dumpoff":
                gap = no_gaps
            elif word in ("$dumpon", "$dumpall", "$dumpvars", "$end"):
                gap = gap and word == "$end"
            elif not gap:
                changes[word[1:]], begun = four_values(first), True
        if begun:
            yield time, changes


class Picked:
    """A variable under its new name: pieces of codes, from the left."""

    def __init__(self, dump, name, path):
        self.name = name
        self.parts = parts_of(dump, path)
        self.width = sum(end - begin for _, begin, end in self.parts)

    def value(self, values):
        return "".join(values[code][begin:end] for code, begin, end in self.parts)


def parts_of(dump, path):
    """The pieces of codes that a path names; a scope may have an index in its name, as one of a generate block."""
    scopes, dot, last = path.rpartition(".")
    name = scopes + dot + last.split("[", 1)[0]
    selects = SELECT.findall(path[len(name) :])
    variables = dump.variables.get(name)
    if variables is None:
        raise Refused(f"no variable {name}")
    indexes = [int(high) for high, low in selects if low == ""]
    spans = [(int(high), int(low)) for high, low in selects if low != ""]
    if indexes:
        words = [variable for variable in variables if variable.index == indexes[0]]
        if words:
            return span_of(words[0], spans + [(bit, bit) for bit in indexes[1:]])
        return span_of(whole(variables, name), [(indexes[0], indexes[0])])
    bits = [variable for variable in variables if variable.index is not None]
    if len(bits) == len(variables) and all(bit.width == 1 for bit in bits):
        bits = sorted({bit.index: bit for bit in bits}.items(), reverse=True)
        if spans:
            bits = [(index, bit) for index, bit in bits if spans[0][1] <= index <= spans[0][0]]
        return [(bit.code, 0, 1) for _, bit in bits]
    return span_of(whole(variables, name), spans)


def whole(variables, name):
    for variable in variables:
        if variable.index is None:
            return variable
    raise Refused(f"{name} has words alone: name one, as {name}[{variables[0].index}]")


def span_of(variable, spans):
    if not spans:
        return [(variable.code, 0, variable.width)]
    begin, end = variable.places(*spans[0])
    return [(variable.code, begin, end)]


class Writer:
    """The pieces of the new dump."""

    def __init__(self, path, scope, scale, picked):
        self.path, self.scope, self.scale, self.picked = path, scope, scale, picked
        self.number, self.file, self.last = 0, None, {}

    def begin(self, pieces):
        self.close()
        self.number += 1
        stem, suffix = os.path.splitext(self.path)
        name = f"{stem}.{self.number}{suffix}" if pieces else self.path
        self.file = open(name, "w", encoding="ascii")
        if self.scale:
            self.file.write(f"$timescale {' '.join(self.scale)} $end\n")
        names = self.scope.split(".")
        for name in names:
            self.file.write(f"$scope module {name} $end\n")
        for place, one in enumerate(self.picked):
            span = f" [{one.width - 1}:0]" if one.width > 1 else ""
            self.file.write(f"$var wire {one.width} {letters(place)} {one.name}{span} $end\n")
        self.file.write("$upscope $end\n" * len(names) + "$enddefinitions $end\n")
        self.last = {}

    def step(self, time, values):
        """A step with what has changed since the last one."""
        lines = []
        for place, one in enumerate(self.picked):
            value = one.value(values)
            if self.last.get(place) != value:
                self.last[place] = value
                lines.append(
                    f"{value}{letters(place)}\n" if one.width == 1 else f"b{value} {letters(place)}\n"
                )
        if lines:
            self.file.write(f"#{time}\n" + "".join(lines))

    def close(self):
        if self.file:
            self.file.close()


def letters(number):
    """An identifier code."""
    text = ""
    while True:
        text += chr(33 + number % 94)
        number = number // 94 - 1
        if number < 0:
            return text


def run(arguments):
    with open(arguments.source, encoding="latin-1") as source:
        dump = Dump(source)
        picked = [Picked(dump, *pick.split("=", 1)) for pick in arguments.picks]
        values = {code: "x" * width for code, width in dump.widths.items()}
        writer = Writer(arguments.out, arguments.scope, dump.scale, picked)
        clock = next((one for one in picked if one.name == arguments.clock), None)
        if arguments.pieces and clock is None:
            raise Refused("--pieces wants --clock with one of the new names")
        writer.begin(arguments.pieces)
        edges, before, time = 0, "x", None
        for time, changes in dump.steps(arguments.no_gaps):
            if arguments.pieces and edges >= arguments.pieces:
                writer.begin(True)
                writer.step(last_time, values)
                edges = 0
            for code, digits in changes.items():
                if code not in values:
                    raise Refused(f"the code {code} isn't declared")
                values[code] = extended(digits, dump.widths[code])
            writer.step(time, values)
            last_time = time
            if clock is not None:
                now = clock.value(values)[-1]
                edges += (before == "0" and now != "0") or (before in "xz" and now == "1")
                before = now
        if time is not None:
            writer.file.write(f"#{time}\n")
        writer.close()


def main():
    words = argparse.ArgumentParser(description=__doc__, formatter_class=argparse.RawDescriptionHelpFormatter)
    words.add_argument("source", metavar="IN")
    words.add_argument("out", metavar="OUT")
    words.add_argument("picks", metavar="NAME=PATH", nargs="+")
    words.add_argument("--scope", required=True)
    words.add_argument("--no-gaps", action="store_true")
    words.add_argument("--pieces", type=int, default=0, metavar="N")
    words.add_argument("--clock", metavar="NAME")
    arguments = words.parse_args()
    if any("=" not in pick for pick in arguments.picks):
        words.error("a variable is picked by NAME=PATH")
    try:
        run(arguments)
    except (Refused, OSError) as fault:
        print(f"vcdprep: {fault}", file=sys.stderr)
        return 1
    return 0


if __name__ == "__main__":
    sys.exit(main())
