"""Expressions of SystemVerilog (IEEE 1800-2017, clause 11): their trees, from tokens."""

from dataclasses import dataclass, field

from .notes import SourceError
from .source import END, MACRO, NAME, NUMBER, OPERATOR, REAL, STRING, SYSTEM, Token

LEVELS = [
    ["->", "<->"], ["||"], ["&&"], ["|"], ["^", "~^", "^~"], ["&"],
    ["==", "!=", "===", "!==", "==?", "!=?"],
    ["<", "<=", ">", ">=", "inside"], ["<<", ">>", "<<<", ">>>"], ["+", "-"], ["*", "/", "%"], ["**"],
]  # fmt: skip
PRECEDENCE = {word: level for level, words in enumerate(LEVELS) for word in words}
UNARY = {"+", "-", "!", "~", "&", "|", "^", "~&", "~|", "~^", "^~"}
TYPE_WORDS = set(
    "bit logic reg byte shortint int longint integer time real shortreal realtime string void chandle event".split()
)


@dataclass(frozen=True)
class Expr:
    """A tree: its kind, its operator or word, its parts, and the tokens [first, last) of its text."""

    kind: str
    text: str
    parts: tuple
    token: Token
    source: str = field(compare=False, default="")


class Tokens:
    """Tokens with a place in them."""

    def __init__(self, tokens):
        self.tokens = tokens
        self.at = 0
        last = tokens[-1] if tokens else Token(END, "", "-", 0)
        self.end = Token(END, "", last.file, last.line)

    @property
    def now(self):
        return self.tokens[self.at] if self.at < len(self.tokens) else self.end

    def ahead(self, steps=1):
        return self.tokens[self.at + steps] if self.at + steps < len(self.tokens) else self.end

    def next(self):
        token = self.now
        self.at += 1
        return token

    def sees(self, *words):
        return self.now.text in words and self.now.kind not in (STRING, MACRO)

    def takes(self, *words):
        if self.sees(*words):
            return self.next()
        return None

    def wants(self, word):
        if not self.sees(word):
            raise SourceError(self.now.place, f"{word!r} is wanted before {self.now.text!r}")
        return self.next()

    def name(self):
        if self.now.kind != NAME:
            raise SourceError(self.now.place, f"a name is wanted before {self.now.text!r}")
        return self.next()

    def is_done(self):
        return self.at >= len(self.tokens)

    def bracketed(self):
        """The tokens between the bracket here and the one that closes it."""
        closing = {"(": ")", "[": "]", "{": "}"}
        opened, depth, start = self.next(), 1, self.at
        while depth:
            if self.is_done():
                raise SourceError(opened.place, f"{opened.text!r} isn't closed by {closing[opened.text]!r}")
            token = self.next()
            if token.kind == OPERATOR:
                depth += {"(": 1, "[": 1, "{": 1, ")": -1, "]": -1, "}": -1}.get(token.text, 0)
        return self.tokens[start : self.at - 1]

    def until(self, *words):
        """The tokens before the first of the words that stands outside of brackets."""
        start, depth = self.at, 0
        while not self.is_done():
            if depth == 0 and self.sees(*words):
                break
            if self.now.kind == OPERATOR:
                depth += {"(": 1, "[": 1, "{": 1, ")": -1, "]": -1, "}": -1}.get(self.now.text, 0)
                if depth < 0:
                    break
            self.at += 1
        return self.tokens[start : self.at]


def spelled(tokens):
    """Tokens as text, with a blank where one stood or is wanted."""
    out = ""
    for token in tokens:
        is_word = token.kind in (NAME, NUMBER, SYSTEM) and (out[-1:].isalnum() or out[-1:] in ("_", "$"))
        out += (" " if out and (not token.joined or is_word) else "") + token.text
    return out


def split(tokens, word=","):
    """The pieces between the commas that stand outside of brackets."""
    walk, pieces = Tokens(tokens), []
    if not tokens:
        return []
    while True:
        pieces.append(walk.until(word))
        if not walk.takes(word):
            return pieces


def expression_of(tokens):
    """The one expression that the tokens are."""
    walk = Tokens(tokens)
    found = expression(walk)
    if not walk.is_done():
        raise SourceError(walk.now.place, f"no expression goes on with {walk.now.text!r}")
    return found


def expression(walk):
    """The longest expression that begins here."""
    return Reader(walk).ternary()


@dataclass
class Reader:
    walk: Tokens

    def made(self, kind, text, parts, start):
        tokens = self.walk.tokens[start : self.walk.at]
        return Expr(kind, text, tuple(parts), tokens[0] if tokens else self.walk.now, spelled(tokens))

    def ternary(self):
        start = self.walk.at
        condition = self.binary(0)
        if not self.walk.takes("?"):
            return condition
        then = self.ternary()
        self.walk.wants(":")
        return self.made("ternary", "?", [condition, then, self.ternary()], start)

    def binary(self, level):
        start = self.walk.at
        left = self.unary()
        while self.walk.now.kind in (OPERATOR, NAME) and PRECEDENCE.get(self.walk.now.text, -1) >= level:
            word = self.walk.next().text
            if word == "inside":
                left = self.made("inside", word, [left, *self.ranges()], start)
            else:
                right = self.binary(PRECEDENCE[word] + 1)
                left = self.made("binary", word, [left, right], start)
        return left

    def ranges(self):
        """The elements of a list of values and ranges, in its braces."""
        self.walk.wants("{")
        found = []
        while not self.walk.sees("}"):
            found.append(self.element())
            if not self.walk.takes(","):
                break
        self.walk.wants("}")
        return found

    def element(self):
        start = self.walk.at
        if not self.walk.takes("["):
            return self.made("dollar", "$", [], start) if self.walk.takes("$") else self.ternary()
        low = self.end()
        word = self.walk.now.text
        if not self.walk.takes(":", "+/-"):
            raise SourceError(self.walk.now.place, f"a range has ':' in place of {word!r}")
        high = self.end()
        self.walk.wants("]")
        return self.made("range", word, [low, high], start)

    def end(self):
        start = self.walk.at
        return self.made("dollar", "$", [], start) if self.walk.takes("$") else self.ternary()

    def unary(self):
        start = self.walk.at
        if self.walk.now.kind == OPERATOR and self.walk.now.text in UNARY:
            word = self.walk.next().text
            return self.made("unary", word, [self.unary()], start)
        return self.postfix(self.primary(), start)

    def primary(self):
        walk, start = self.walk, self.walk.at
        token = walk.now
        if token.kind in (NUMBER, REAL, STRING):
            walk.next()
            return self.made(token.kind, token.text, [], start)
        if token.kind == SYSTEM:
            walk.next()
            words = self.call() if walk.sees("(") else []
            return self.made("system", token.text, words, start)
        if token.kind == NAME:
            walk.next()
            if token.text in TYPE_WORDS:
                sign = walk.takes("signed", "unsigned")
                return self.made("type", token.text + (" " + sign.text if sign else ""), [], start)
            if token.text in ("signed", "unsigned") and walk.sees("'"):
                return self.made("type", token.text, [], start)
            return self.made("name", token.text, [], start)
        if walk.takes("("):
            inner = self.ternary()
            walk.wants(")")
            return self.made("paren", "(", [inner], start)
        if walk.sees("{"):
            return self.concatenation(start)
        if walk.sees("'") and walk.ahead().text == "{":
            walk.next()
            walk.next()
            parts = []
            while not walk.sees("}"):
                parts.append(self.ternary())
                if walk.takes(":"):
                    parts[-1] = self.ternary()
                if not walk.takes(","):
                    break
            walk.wants("}")
            return self.made("pattern", "'{", parts, start)
        raise SourceError(token.place, f"an expression is wanted before {token.text or 'the end'!r}")

    def call(self):
        self.walk.wants("(")
        words = []
        while not self.walk.sees(")"):
            if self.walk.takes("."):
                self.walk.name()
                self.walk.wants("(")
                words.append(self.ternary())
                self.walk.wants(")")
            else:
                words.append(self.ternary())
            if not self.walk.takes(","):
                break
        self.walk.wants(")")
        return words

    def concatenation(self, start):
        walk = self.walk
        walk.wants("{")
        first = self.ternary()
        if walk.sees("{"):
            inner = self.concatenation(walk.at)
            walk.wants("}")
            return self.made("replication", "{", [first, inner], start)
        parts = [first]
        while walk.takes(","):
            parts.append(self.ternary())
        walk.wants("}")
        return self.made("concatenation", "{", parts, start)

    def postfix(self, base, start):
        walk = self.walk
        while True:
            if walk.sees("."):
                walk.next()
                base = self.made("member", walk.name().text, [base], start)
            elif walk.sees("::"):
                walk.next()
                base = self.made("scoped", walk.name().text, [base], start)
            elif walk.sees("#") and walk.ahead().text == "(" and base.kind in ("name", "scoped"):
                walk.next()
                walk.bracketed()
                base = self.made(base.kind, base.text, base.parts, start)
            elif walk.sees("[") and walk.ahead().text not in ("*", "->", "="):
                base = self.select(base, start)
            elif walk.sees("(") and base.kind in ("name", "member", "scoped"):
                base = self.made("call", base.text, [base, *self.call()], start)
            elif walk.sees("'") and walk.ahead().text == "(":
                walk.next()
                walk.next()
                inner = self.ternary()
                walk.wants(")")
                base = self.made("cast", base.source, [base, inner], start)
            else:
                return base

    def select(self, base, start):
        walk = self.walk
        walk.wants("[")
        index = self.ternary()
        word = walk.takes(":", "+:", "-:")
        if not word:
            walk.wants("]")
            return self.made("select", "[", [base, index], start)
        other = self.ternary()
        walk.wants("]")
        return self.made("slice", word.text, [base, index, other], start)
