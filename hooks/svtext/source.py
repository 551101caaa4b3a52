"""Tokens of SystemVerilog sources (IEEE 1800-2017, clause 5), behind their compiler directives (clause 22): `include,
`define with and without arguments, `undef, `ifdef and its fellows, and `line. Other directives are passed over."""

import os
import re
from dataclasses import dataclass, field

from .notes import SourceError

NAME, SYSTEM, NUMBER, REAL, STRING, OPERATOR, MACRO, END = "name system number real string operator macro end".split()

OPERATORS = """<<<= >>>= <-> <<< >>> === !== ==? !=? <<= >>= |-> |=> +/- ->> && || == != <= >= << >> ** ++ -- += -= *= /= %=
&= |= ^= ~& ~| ~^ ^~ -> => :: := :/ +: -: .* ## @@ // ( ) [ ] { } ; : , . = + - * / % & | ^ ~ ! ? < > # @ $ '""".split()

SCAN = re.compile(
    r"""(?P<blank>[ \t\r\f]+) | (?P<newline>\n) | (?P<comment>//[^\n]*|/\*.*?\*/)
    | (?P<string>"(?:\\.|[^"\\])*") | (?P<directive>`[A-Za-z_][\w$]*)
    | (?P<real>\d[\d_]*\.\d[\d_]*(?:[eE][+-]?\d+)?|\d[\d_]*[eE][+-]?\d+|\d[\d_]*(?:\.\d+)?(?:fs|ps|ns|us|ms|s)\b)
    | (?P<number>(?:\d[\d_]*[ \t]*)?'[sS]?[bodhBODH][ \t]*[0-9a-fA-FxXzZ?_]+|'[01xXzZ](?!\w)|\d[\d_]*)
    | (?P<escaped>\\[^\s]+) | (?P<name>[A-Za-z_][\w$]*) | (?P<system>\$[A-Za-z_][\w$]*)
    | (?P<operator>"""
    + "|".join(re.escape(it) for it in OPERATORS if it != "//")
    + r""")""",
    re.VERBOSE | re.DOTALL,
)

PASSED_OVER = set(
    """timescale default_nettype celldefine endcelldefine resetall unconnected_drive nounconnected_drive pragma
    begin_keywords end_keywords undefineall default_decay_time default_trireg_strength delay_mode_distributed
    delay_mode_path delay_mode_unit delay_mode_zero verilator_config protect endprotect""".split()
)
HARMLESS = ("uvm_macros.svh", "ovm_macros.svh", "vmm.sv")
DEEPEST = 64
# what stands for `` and `" and `\\`" of a macro's body while its arguments are put in (22.5.1)
PASTE, QUOTE, ESCAPED_QUOTE = "\x01", "\x02", "\x03"


@dataclass(frozen=True)
class Token:
    kind: str
    text: str
    file: str
    line: int
    joined: bool = False

    @property
    def place(self):
        return f"{self.file}:{self.line}"

    def __repr__(self):
        return f"{self.text}@{self.line}"


@dataclass(frozen=True)
class Macro:
    formals: tuple
    defaults: tuple
    body: str


@dataclass
class Conditional:
    is_taken: bool
    was_taken: bool
    is_reached: bool


@dataclass
class Preprocessor:
    """Reads files one after the other; macros go from one to the next, as in one compilation unit."""

    notes: object
    folders: list = field(default_factory=list)
    macros: dict = field(default_factory=dict)
    tokens: list = field(default_factory=list)
    nest: list = field(default_factory=list)

    def define(self, word):
        name, _, value = word.partition("=")
        self.macros[name] = Macro((), (), value)

    def read(self, path):
        try:
            with open(path, encoding="utf-8-sig", errors="replace", newline="") as file:
                text = file.read().replace("\r\n", "\n")
        except OSError as error:
            raise SourceError(path, error.strerror or "can't be read") from error
        depth = len(self.nest)
        Scanner(self, text, path, 1, 0).run()
        if len(self.nest) > depth:
            raise SourceError(path, "an `ifdef has no `endif")

    def is_active(self):
        return all(it.is_taken for it in self.nest)

    def find(self, name, beside):
        for folder in (os.path.dirname(beside), *self.folders):
            path = os.path.join(folder, name)
            if os.path.isfile(path):
                return path
        return None


@dataclass
class Scanner:
    """One text: a file, or what a macro stands for, whose tokens stand at the line of its use."""

    outer: Preprocessor
    text: str
    file: str
    line: int
    depth: int
    at: int = 0

    def run(self):
        if self.depth > DEEPEST:
            raise SourceError(f"{self.file}:{self.line}", "macros or included files stand in one another without end")
        joined = False
        while self.at < len(self.text):
            found = SCAN.match(self.text, self.at)
            if not found:
                if self.outer.is_active():
                    raise SourceError(f"{self.file}:{self.line}", f"no token begins with {self.text[self.at]!r}")
                self.at += 1
                continue
            self.at = found.end()
            kind, text = found.lastgroup, found.group()
            if kind == "directive":
                self.directive(text[1:])
            elif kind not in ("blank", "newline", "comment") and self.outer.is_active():
                self.put(kind, text, joined)
            joined = kind not in ("blank", "newline", "comment")
            if self.depth == 0 or not self.is_macro:
                self.line += text.count("\n") if kind != "directive" else 0

    is_macro = False

    def put(self, kind, text, joined):
        if kind == "escaped":
            kind, text = NAME, text[1:]
        self.outer.tokens.append(Token(kind, text, self.file, self.line, joined))

    def place(self):
        return Token(MACRO, "", self.file, self.line)

    def rest_of_line(self):
        """The rest of the line; one that ends in a backslash goes on in the next."""
        found = re.compile(r"(?:\\\r?\n|[^\n])*").match(self.text, self.at)
        self.at = found.end()
        rest = found.group()
        if not self.is_macro:
            self.line += rest.count("\n")
        return rest

    def directive(self, word):
        method = getattr(self, f"on_{word}", None)
        if method:
            method()
        elif not self.outer.is_active():
            return
        elif word in PASSED_OVER:
            self.rest_of_line()
        elif word in self.outer.macros:
            self.expand(word)
        elif word in ("__FILE__", "__LINE__"):
            self.put(*((STRING, f'"{self.file}"') if word == "__FILE__" else (NUMBER, str(self.line))), False)
        else:
            self.outer.notes.note(self.place(), f"the macro `{word} isn't defined and was passed over")
            self.put(MACRO, "`" + word, False)
            if self.text[self.at : self.at + 1] == "(":
                self.arguments()

    # ---- conditionals

    def condition(self):
        found = re.compile(r"\s*([\w$]+)").match(self.text, self.at)
        if not found:
            raise SourceError(f"{self.file}:{self.line}", "an `ifdef names no macro")
        self.at = found.end()
        return found[1] in self.outer.macros

    def open(self, holds):
        is_reached = self.outer.is_active()
        self.outer.nest.append(Conditional(is_reached and holds, holds, is_reached))

    def on_ifdef(self):
        self.open(self.condition())

    def on_ifndef(self):
        self.open(not self.condition())

    def innermost(self):
        if not self.outer.nest:
            raise SourceError(f"{self.file}:{self.line}", "no `ifdef is open here")
        return self.outer.nest[-1]

    def on_elsif(self):
        holds, it = self.condition(), self.innermost()
        it.is_taken = it.is_reached and holds and not it.was_taken
        it.was_taken |= holds

    def on_else(self):
        it = self.innermost()
        it.is_taken, it.was_taken = it.is_reached and not it.was_taken, True

    def on_endif(self):
        self.innermost()
        self.outer.nest.pop()

    # ---- files and macros

    def on_line(self):
        rest = self.rest_of_line()
        found = re.match(r'\s*(\d+)\s+"([^"]*)"', rest)
        if found and self.outer.is_active():
            self.line, self.file = int(found[1]) - 1, found[2]

    def on_include(self):
        rest = self.rest_of_line()
        if not self.outer.is_active():
            return
        found = re.match(r'\s*["<]([^">]+)[">]', rest)
        path = found and self.outer.find(found[1], self.file)
        if path:
            with open(path, encoding="utf-8-sig", errors="replace") as file:
                Scanner(self.outer, file.read(), path, 1, self.depth + 1).run()
        elif found and os.path.basename(found[1]) in HARMLESS:
            self.outer.notes.note(self.place(), f"the included file {found[1]} isn't found and isn't needed")
        else:
            self.outer.notes.left_out(self.place(), f"the included file {found[1] if found else rest.strip()} isn't found")

    def on_undef(self):
        name = self.rest_of_line().strip()
        if self.outer.is_active():
            self.outer.macros.pop(name, None)

    def on_define(self):
        rest = self.rest_of_line()
        if not self.outer.is_active():
            return
        rest = re.sub(r"\\\r?\n", "\n", rest)
        rest = re.sub(r'("(?:\\.|[^"\\])*")|//[^\n]*|/\*.*?\*/', lambda it: it[1] or " ", rest, flags=re.DOTALL)
        found = re.match(r"\s*([A-Za-z_][\w$]*)(\()?", rest)
        if not found:
            raise SourceError(f"{self.file}:{self.line}", "a `define has no name")
        at, formals, defaults = found.end(), [], []
        if found[2]:
            words, at = split_arguments(rest, at)
            for word in words:
                name, has, default = word.partition("=")
                formals.append(name.strip())
                defaults.append(default.strip() if has else None)
        self.outer.macros[found[1]] = Macro(tuple(formals) if found[2] else None, tuple(defaults), rest[at:].strip())

    def arguments(self):
        words, end = split_arguments(self.text, self.at + 1)
        if not self.is_macro:
            self.line += self.text.count("\n", self.at, end)
        self.at = end
        return words

    def expand(self, word):
        macro, line = self.outer.macros[word], self.line
        body = macro.body.replace('`\\`"', ESCAPED_QUOTE).replace('`"', QUOTE).replace("``", PASTE)
        if macro.formals is not None and macro.formals != ():
            blank = re.compile(r"\s*\(").match(self.text, self.at)
            if not blank:
                raise SourceError(f"{self.file}:{line}", f"the macro `{word} has no arguments here")
            self.at = blank.end() - 1
            body = substituted(macro, body, self.arguments(), f"{self.file}:{line}", word)
        elif macro.formals == () and re.compile(r"\(\s*\)").match(self.text, self.at):
            self.at = self.text.index(")", self.at) + 1
        body = body.replace(PASTE, "").replace(ESCAPED_QUOTE, '\\"').replace(QUOTE, '"')
        inner = Scanner(self.outer, body, self.file, line, self.depth + 1)
        inner.is_macro = True
        inner.run()


def substituted(macro, body, words, place, name):
    """A macro's body with its arguments in place of its formals, outside of strings."""
    values = {}
    for at, formal in enumerate(macro.formals):
        value = words[at].strip() if at < len(words) else ""
        if not value and macro.defaults[at] is not None:
            value = macro.defaults[at]
        elif at >= len(words) and len(macro.formals) > 1:
            raise SourceError(place, f"the macro `{name} has too few arguments")
        values[formal] = value
    pattern = re.compile(r'("(?:\\.|[^"\\])*")|(`?[A-Za-z_][\w$]*)')
    return pattern.sub(lambda it: it[1] or values.get(it[2], it[2]), body)


def split_arguments(text, at):
    """The pieces between commas up to the parenthesis that closes the one before `at`, and the place behind it."""
    pieces, depth, start = [], 0, at
    while at < len(text):
        letter = text[at]
        if letter == '"':
            at = re.compile(r'"(?:\\.|[^"\\])*"?').match(text, at).end()
            continue
        if letter == ")" and depth == 0:
            pieces.append(text[start:at])
            return ([] if len(pieces) == 1 and not pieces[0].strip() else pieces), at + 1
        if letter == "," and depth == 0:
            pieces.append(text[start:at])
            start = at + 1
        depth += {"(": 1, "[": 1, "{": 1, ")": -1, "]": -1, "}": -1}.get(letter, 0)
        at += 1
    raise SourceError("-", "the arguments of a macro have no end")
