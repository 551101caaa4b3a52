"""The design text that is written (docs/FORMATS.md, "Design text"): its names, enumerations, variables, covergroups and
instances."""

import re
from dataclasses import dataclass, field

from .scopes import Integral, Value

WIDEST = 64
WORDS = set(
    """typedef enum bit logic reg byte shortint int longint integer signed unsigned new covergroup endgroup input ref with
    function sample posedge negedge edge iff or option type_option coverpoint cross bins illegal_bins ignore_bins wildcard
    default sequence binsof intersect module class package interface begin end initial always assign wire parameter""".split()
)


def name_of(text):
    """A name for what is read by this text: `t.addr` gives t_addr."""
    name = re.sub(r"[^A-Za-z0-9_]+", "_", text).strip("_")
    name = name if name and not name[0].isdigit() else f"v_{name}"
    return f"{name}_" if name in WORDS else name


@dataclass
class Names:
    """The names of one scope."""

    taken: set = field(default_factory=set)

    def take(self, *wanted):
        """The first of the names that is free, or the last one with a number."""
        for name in wanted:
            if name not in self.taken:
                self.taken.add(name)
                return name
        number = 2
        while f"{wanted[-1]}_{number}" in self.taken:
            number += 1
        return self.take(f"{wanted[-1]}_{number}")


@dataclass
class Enum:
    name: str
    base: Integral
    members: tuple
    constants: dict


@dataclass
class Signal:
    name: str
    type: Integral
    path: object
    source: str


@dataclass
class Instance:
    """An instance: its arguments as text, and the signals that its group's readings are, in the group's order."""

    name: str
    group: object
    arguments: list
    signals: dict
    site: object = None


def literal_of(value):
    """A constant as a literal of its width and sign."""
    number, width = value.number, value.width
    if width == 32 and value.signed and number > -(1 << 31):
        return str(number) if number >= 0 else f"(-{-number})"
    bits = number & ((1 << width) - 1)
    sign = "s" if value.signed else ""
    return f"{width}'{sign}h{bits:X}" if bits > 9 or number < 0 else f"{width}'{sign}d{bits}"


@dataclass
class Book:
    """What is written, in the order of its text."""

    notes: object
    names: Names = field(default_factory=Names)
    enums: list = field(default_factory=list)
    signals: list = field(default_factory=list)
    groups: list = field(default_factory=list)
    instances: list = field(default_factory=list)
    known: dict = field(default_factory=dict)

    def enum(self, kind, wanted="enum_t"):
        """The enumeration of a type, declared where it isn't yet."""
        members = kind.enum.members
        key = (kind.enum.name, members, kind.width, kind.signed)
        if key not in self.known:
            name = self.names.take(kind.enum.name or wanted, f"{kind.enum.name or wanted}_t")
            constants = {}
            for own, _ in members:
                constants[own] = self.names.take(own, f"{name}_{own}")
                if constants[own] != own:
                    self.notes.changed(kind.enum.token, f"the constant {own} of {name} is {constants[own]} here")
            self.known[key] = Enum(name, kind.enum.base, members, constants)
            self.enums.append(self.known[key])
        return self.known[key]

    def type_text(self, kind, wanted="enum_t"):
        """A type as a design text has it."""
        if kind.enum:
            return self.enum(kind, wanted).name
        return vector_text(kind)

    def signal(self, scope, source, kind, path, wanted):
        """The variable for what a scope reads by a text."""
        key = (id(scope), source)
        if key not in self.known:
            label = label_of(scope)
            name = self.names.take(wanted, *([f"{label}_{wanted}"] if label else []))
            self.type_text(kind, f"{name}_t")
            self.known[key] = Signal(name, kind, path, source)
            self.signals.append(self.known[key])
        return self.known[key]

    def declarations(self):
        lines = []
        for it in self.enums:
            base = "" if it.base.word == "int" and it.base.signed else vector_text(it.base, True) + " "
            members = ", ".join(member_text(it, k) for k in range(len(it.members)))
            lines.append(f"typedef enum {base}{{ {members} }} {it.name};")
        return lines + [f"{self.type_text(it.type)} {it.name};" for it in self.signals]

    def made(self, group):
        return [it for it in self.instances if it.group is group]

    def text(self):
        lines = self.declarations()
        for group in self.groups:
            lines += ["", *group.lines()]
            lines += [f"{group.name} {it.name} = new{call_text(it.arguments)};" for it in self.made(group)]
        return "\n".join(lines) + "\n"

    def where(self, line):
        """The group of a line of the text, with the instance that the line makes, or its place in the group."""
        at = len(self.declarations())
        for group in self.groups:
            size = len(group.lines())
            own = line - at - 1
            if 0 <= own < size:
                return [(group, None, own)]
            if size <= own < size + len(self.made(group)):
                return [(group, self.made(group)[own - size], 0)]
            at += 1 + size + len(self.made(group))
        return []


def call_text(words):
    return f"({', '.join(words)})" if words else ""


def member_text(enum, place):
    """One constant, with its value where it isn't one more than the one before it."""
    name, value = enum.members[place]
    before = enum.members[place - 1][1] if place else -1
    own = enum.constants[name]
    if value == before + 1:
        return own
    return f"{own} = {literal_of(Value(value, enum.base.width, enum.base.signed))}"


def vector_text(kind, is_base=False):
    """Bits as a type; a base of an enumeration is a vector."""
    if not is_base and kind.word in ("byte", "shortint", "int", "longint", "integer"):
        return kind.word if kind.signed else f"{kind.word} unsigned"
    word = kind.word if kind.word in ("bit", "logic", "reg") else "bit" if kind.word != "integer" else "logic"
    sign = " signed" if kind.signed else ""
    left, right = kind.spans[0] if is_plain(kind) and kind.spans else (kind.width - 1, 0)
    span = f" [{left}:{right}]" if kind.width > 1 or right else ""
    return word + sign + span


def is_plain(kind):
    """Whether the bits have the one dimension that a design text can declare."""
    return not kind.struct and len(kind.spans) <= 1 and all(left >= right >= 0 for left, right in kind.spans)


def label_of(scope):
    """A short name of a scope, for names that have to be told apart."""
    if scope.kind == "class" or scope.kind == "package":
        return name_of(scope.name)
    top, _, rest = scope.path.partition(".")
    return name_of(rest or top)
