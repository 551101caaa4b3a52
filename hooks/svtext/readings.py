"""What a covergroup's expressions read, and their text in the profile of docs/FORMATS.md."""

from dataclasses import dataclass, field, replace

from .book import WIDEST, Names, is_plain, literal_of, name_of
from .expressions import Expr, expression_of
from .notes import SourceError
from .scopes import (
    ArrayType, HandleType, Integral, NotConstant, NoType, StructType, Symbol, Value, bits, constant, literal, number_of, shape,
)  # fmt: skip

BINARY = set("+ - * / % << >> <<< >>> < <= > >= == != & ^ | && ||".split())
PLAIN = ("number", "name", "scoped", "paren")
COMPOSITE = ("unary", "binary", "ternary", "concatenation", "replication", "inside", "select", "slice")
MOST_COPIES = 64


class CannotSay(Exception):
    """What the profile has no text for, and why."""


@dataclass
class Reading:
    """A value that the group takes from its surroundings, under the name that it has in the group's text. `source` is
    what the bench calls it; `path` and `span` are where a dump has it; `formal` is the handle of the covergroup's formals
    that it is a member of; `argument` the place of the sample argument that it belongs to, or none; `key` is its text in the
    scope `home`, by which others that read the same are known."""

    name: str
    type: Integral
    source: str
    token: object
    path: str = ""
    formal: str = ""
    argument: object = None
    is_event: bool = True
    key: str = ""
    home: object = None


@dataclass
class Place:
    """Where a dump has something: a variable by its path, and bits of it."""

    path: str
    low: int
    width: int
    whole: int

    def text(self):
        is_whole = self.low == 0 and self.width == self.whole
        return self.path if is_whole else f"{self.path}[{self.low + self.width - 1}:{self.low}]"


@dataclass
class Speaker:
    """Says expressions of one covergroup in the profile, and collects what they read."""

    scope: object
    book: object
    notes: object
    names: Names = field(default_factory=Names)
    readings: dict = field(default_factory=dict)
    is_event: bool = False
    has_item: bool = False
    is_wildcard: bool = False

    # ---- texts

    def value(self, expr):
        """An expression over what is sampled."""
        return self.say(expr, True)

    def constant(self, expr):
        """A constant expression."""
        return self.say(expr, False)

    def say(self, expr, is_sampled):
        method = getattr(self, f"say_{expr.kind}", None)
        if method is None:
            return self.other(expr, is_sampled)
        if expr.kind in PLAIN:
            return self.said(method, expr, is_sampled)
        readings, taken = dict(self.readings), set(self.names.taken)
        try:
            return method(expr, is_sampled)
        except (CannotSay, NotConstant, NoType) as error:
            if is_sampled and expr.kind in COMPOSITE:  # a bench can work the whole of it out
                self.readings, self.names.taken = readings, taken
                return self.other(expr, is_sampled)
            raise error if isinstance(error, CannotSay) else CannotSay(str(error)) from error

    def said(self, method, expr, is_sampled):
        try:
            return method(expr, is_sampled)
        except (NotConstant, NoType) as error:
            raise CannotSay(str(error)) from error

    def other(self, expr, is_sampled):
        """What the profile has no form for: its value where it is constant, else a reading of its own."""
        try:
            value = constant(expr, self.scope)
            if isinstance(value, Value):
                return self.number(value, expr)
        except (NotConstant, NoType, SourceError):
            pass
        if not is_sampled:
            raise CannotSay(f"{expr.source} is no constant that is known here")
        if self.has_item and mentions(expr, "item"):
            raise CannotSay(f"{expr.source} can't be said of an item")
        return self.reading(expr).name

    def number(self, value, expr):
        if value.width > WIDEST:
            raise CannotSay(f"{expr.source} has {value.width} bits")
        if expr.kind in ("name", "scoped") and not value.enum:
            self.notes.once(expr.token, f"{expr.source} is {value.number} here")
        return literal_of(value)

    def say_number(self, expr, is_sampled):
        text = expr.text.replace(" ", "").replace("\t", "")
        if text.startswith("'") and text[1] in "01xXzZ":
            if text[1] != "0":
                raise CannotSay(f"{text} has no width of its own")
            return "0"
        value = literal(text)
        if value is None and not self.is_wildcard:
            raise CannotSay(f"{text} has bits that aren't known")
        if value and value.width > WIDEST:
            raise CannotSay(f"{text} has {value.width} bits")
        return text

    def say_name(self, expr, is_sampled):
        if self.has_item and expr.text == "item":
            return "item"
        symbol = self.scope.lookup(expr.text)
        return self.symbol(expr, symbol, is_sampled)

    def say_scoped(self, expr, is_sampled):
        return self.symbol(expr, self.scope.find(scoped_names(expr)), is_sampled)

    def symbol(self, expr, symbol, is_sampled):
        if symbol is None:
            raise CannotSay(f"{expr.source} isn't declared in what was read")
        if symbol.kind == "constant":
            if self.is_event:
                return self.number(constant(expr, self.scope), expr)
            return self.book.enum(symbol.known).constants[symbol.name]
        if symbol.kind in ("parameter", "value"):
            value = constant(expr, self.scope)
            if not isinstance(value, Value):
                raise CannotSay(f"{expr.source} is no number")
            if value.enum and not self.is_event:
                for name, number in value.enum.members:
                    if number == value.number:
                        kind = replace(BARE, width=value.width, signed=value.signed, enum=value.enum)
                        return self.book.enum(kind).constants[name]
            return self.number(value, expr)
        if symbol.kind == "formal":
            return expr.text
        if not is_sampled:
            raise CannotSay(f"{expr.source} is no constant")
        return self.reading(expr).name

    def say_paren(self, expr, is_sampled):
        return f"({self.say(expr.parts[0], is_sampled)})"

    def say_unary(self, expr, is_sampled):
        inner = self.say(expr.parts[0], is_sampled)
        return f"{expr.text} {inner}" if inner[:1] in "+-!~&|^" else expr.text + inner

    def say_binary(self, expr, is_sampled):
        if expr.text not in BINARY:
            return self.other(expr, is_sampled)
        left, right = (self.say(it, is_sampled) for it in expr.parts)
        return f"{left} {expr.text} {right}"

    def say_ternary(self, expr, is_sampled):
        condition, then, other = (self.say(it, is_sampled) for it in expr.parts)
        return f"{condition} ? {then} : {other}"

    def say_concatenation(self, expr, is_sampled):
        return "{" + ", ".join(self.say(it, is_sampled) for it in expr.parts) + "}"

    def say_replication(self, expr, is_sampled):
        count = number_of(expr.parts[0], self.scope)
        if not 1 <= count <= MOST_COPIES:
            return self.other(expr, is_sampled)
        inner = self.say(expr.parts[1], is_sampled)
        return "{" + ", ".join([inner] * count) + "}"

    def say_inside(self, expr, is_sampled):
        """`x inside {a, [b:c]}` (11.4.13) by comparisons; the elements have no wildcards here."""
        value = self.say(expr.parts[0], is_sampled)
        if expr.parts[0].kind in ("binary", "ternary", "unary"):
            value = f"({value})"
        pieces = []
        for it in expr.parts[1:]:
            if it.kind == "number" and literal(it.text) is None:
                return self.other(expr, is_sampled)
            pieces.append(self.inside_piece(value, it, is_sampled))
        self.notes.changed(expr.token, f"{expr.source} is written by comparisons")
        return f"({' || '.join(pieces)})"

    def inside_piece(self, value, it, is_sampled):
        if it.kind == "dollar":
            raise CannotSay("$ isn't a value")
        if it.kind != "range":
            return f"{value} == {self.tight(it, is_sampled)}"
        low, high = it.parts
        ends = []
        if low.kind != "dollar":
            ends.append(f"{value} >= {self.tight(low, is_sampled)}")
        if high.kind != "dollar":
            ends.append(f"{value} <= {self.tight(high, is_sampled)}")
        return f"({' && '.join(ends)})" if len(ends) == 2 else ends[0] if ends else "1"

    def tight(self, expr, is_sampled):
        text = self.say(expr, is_sampled)
        return f"({text})" if expr.kind in ("binary", "ternary") else text

    def say_select(self, expr, is_sampled):
        base = expr.parts[0]
        if base.kind == "name" and self.is_selectable(base):
            try:
                return f"{self.say(base, is_sampled)}[{self.index(expr.parts[1])}]"
            except (NotConstant, CannotSay):
                pass
        return self.other(expr, is_sampled)

    def say_slice(self, expr, is_sampled):
        base = expr.parts[0]
        if base.kind == "name" and self.is_selectable(base):
            try:
                high, low = self.ends(expr)
                return f"{self.say(base, is_sampled)}[{high}:{low}]"
            except (NotConstant, CannotSay):
                pass
        return self.other(expr, is_sampled)

    def index(self, expr):
        return number_of(expr, self.scope)

    def ends(self, expr):
        first, other = (number_of(it, self.scope) for it in expr.parts[1:])
        return {":": (first, other), "+:": (first + other - 1, first), "-:": (first, first - other + 1)}[expr.text]

    def is_selectable(self, base):
        """Whether a design text can select bits of the name."""
        symbol = self.scope.lookup(base.text)
        if symbol is None or symbol.kind not in ("variable", "formal", "argument"):
            return False
        kind = shape(base, self.scope)
        return isinstance(kind, Integral) and is_plain(kind) and kind.width <= WIDEST and kind.width > 1

    # ---- readings

    def reading(self, expr, kind=None):
        """The reading that an expression is; its type has to be known, or told, and to fit."""
        try:
            kind = kind or shape(expr, self.scope)
        except (NoType, NotConstant) as error:
            raise CannotSay(str(error)) from error
        key, source = self.plain(expr), expr.source
        if not isinstance(kind, Integral):
            raise CannotSay(f"{expr.source} is no value of bits")
        if kind.width > WIDEST:
            raise CannotSay(f"{expr.source} has {kind.width} bits, more than {WIDEST}")
        kind = kind if kind.enum or is_plain(kind) else Integral(kind.width, kind.signed)
        if key not in self.readings:
            made = Reading(self.fresh(name_of(key)), kind, source, expr.token, key=key, home=self.home(expr))
            made.argument, made.formal = self.owner(expr)
            place = None if made.argument is not None or made.formal else self.place(expr)
            made.path = place.text() if place else ""
            self.readings[key] = made
            self.tell(expr, made)
        self.readings[key].is_event &= self.is_event
        return self.readings[key]

    def fresh(self, name):
        """A name that is free in the group; a constant of an enumeration has its own."""
        return self.names.take(f"{name}_value" if name in self.scope.design.constant_names else name)

    def home(self, expr):
        """The scope of the one variable that an expression reads; where it reads several, that of the group."""
        names = named_in(expr)
        symbol = self.scope.lookup(*names) if len(names) == 1 else None
        if symbol is None or symbol.kind not in ("variable", "instance"):
            return None
        return symbol.scope

    def plain(self, expr):
        """The text of what is read, with signals of clocking blocks as what they stand for, and without `this`."""
        base = self.clocked(expr)
        if base is not None:
            block = expr.parts[0]
            before = f"{self.plain(block.parts[0])}." if block.kind == "member" else ""
            return before + base[0].source
        if expr.kind == "member":
            if expr.parts[0].kind == "name" and expr.parts[0].text == "this":
                return expr.text
            return f"{self.plain(expr.parts[0])}.{expr.text}"
        if expr.kind in ("select", "slice"):
            inner = expr.text.join(it.source for it in expr.parts[1:])
            return f"{self.plain(expr.parts[0])}[{inner}]"
        return expr.source

    def condition(self, expr):
        """A condition, of which alone counts whether it is true: `x === c` is `x == c` where c is known."""
        if expr.kind == "paren":
            return f"({self.condition(expr.parts[0])})"
        if expr.kind == "binary" and expr.text in ("&&", "||"):
            left, right = (self.condition(it) for it in expr.parts)
            return f"{left} {expr.text} {right}"
        if expr.kind == "binary" and expr.text == "===" and any(self.is_known(it) for it in expr.parts):
            self.notes.changed(expr.token, f"{expr.source} is written with ==, which is true of the same values")
            left, right = (self.value(it) for it in expr.parts)
            return f"{left} == {right}"
        return self.value(expr)

    def computed(self, name, kind, source, expr):
        """A reading that a bench works out as `source`."""
        if source not in self.readings:
            made = Reading(self.fresh(name), kind, source, expr.token, key=source, home=self.home(expr))
            made.argument, made.formal = self.owner(expr)
            self.readings[source] = made
            word = "argument" if made.argument is not None else "variable"
            self.notes.changed(expr.token, f"{source} is the {word} {made.name} here")
        self.readings[source].is_event = False
        return self.readings[source].name

    def is_known(self, expr):
        try:
            return isinstance(constant(expr, self.scope), Value)
        except (NotConstant, NoType, SourceError):
            return False

    def tell(self, expr, made):
        if expr.kind != "name" and expr.source != made.name:
            word = "the argument" if made.argument is not None else "the variable"
            self.notes.changed(expr.token, f"{expr.source} is {word} {made.name} here")

    def owner(self, expr):
        """The sample argument that an expression names, by its place, and the handle among the formals."""
        argument, formal = None, ""
        for name in sorted(named_in(expr)):
            symbol = self.scope.lookup(name)
            if symbol and symbol.kind == "argument":
                argument = symbol.place
            elif symbol and symbol.kind == "handle":
                formal = name
        return argument, formal

    def clocked(self, expr):
        """What a signal of a clocking block stands for, with its scope."""
        if expr.kind != "member":
            return None
        try:
            base = shape(expr.parts[0], self.scope)
        except (NoType, NotConstant):
            return None
        if not isinstance(base, Symbol):
            return None
        for name, tokens in base.declared.signals:
            if name == expr.text:
                return expression_of(tokens), base.scope
        return None

    def place(self, expr, scope=None):
        """Where a dump has the value of an expression, if it has."""
        scope = scope or self.scope
        try:
            return self.found_place(expr, scope)
        except (NoType, NotConstant, SourceError):
            return None

    def found_place(self, expr, scope):
        base = self.clocked(expr)
        if base is not None:
            return self.place(*base)
        if expr.kind == "name":
            symbol = scope.lookup(expr.text)
            if symbol is None or symbol.kind != "variable" or not symbol.scope.path or symbol.scope.kind == "class":
                return None
            kind = shape(expr, scope)
            width = kind.width if isinstance(kind, Integral) else 0
            return Place(f"{symbol.scope.path}.{expr.text}", 0, width, width)
        if expr.kind == "member":
            return self.member_place(expr, scope)
        if expr.kind in ("select", "slice"):
            return self.selected_place(expr, scope)
        return None

    def member_place(self, expr, scope):
        base = shape(expr.parts[0], scope)
        if isinstance(base, HandleType) and expr.parts[0].kind == "name":
            symbol = scope.lookup(expr.parts[0].text)
            if symbol and symbol.kind == "instance" and base.scope:
                kind = bits(expr, scope)
                return Place(f"{base.scope.path}.{expr.text}", 0, kind.width, kind.width)
            return None
        outer = self.place(expr.parts[0], scope)
        if outer is None or not isinstance(base, Integral) or not isinstance(base.struct, StructType):
            return None
        below = 0
        for name, kind in reversed(base.struct.members):
            if name == expr.text:
                return Place(outer.path, outer.low + below, kind.width, outer.whole)
            below += 0 if base.struct.is_union else kind.width
        return None

    def selected_place(self, expr, scope):
        outer, kind = self.place(expr.parts[0], scope), shape(expr.parts[0], scope)
        if outer is None:
            return None
        if isinstance(kind, ArrayType):
            element = kind.element
            width = element.width if isinstance(element, Integral) else 0
            return Place(f"{outer.path}[{number_of(expr.parts[1], scope)}]", 0, width, width)
        left, right = kind.spans[0] if kind.spans else (kind.width - 1, 0)
        own = bits(expr, scope)
        at = number_of(expr.parts[1], scope) if expr.kind == "select" else min(self.ends(expr))
        if left < right or not right <= at <= left:
            return None
        unit = kind.width // (left - right + 1)
        return Place(outer.path, outer.low + (at - right) * unit, own.width, outer.whole)


BARE = Integral(1)


def scoped_names(expr):
    return [expr.text] if expr.kind == "name" else scoped_names(expr.parts[0]) + [expr.text]


def named_in(expr: Expr):
    """The names with which the paths of an expression begin."""
    if expr.kind == "name":
        return {expr.text}
    return set().union(*(named_in(it) for it in expr.parts)) if expr.parts else set()


def mentions(expr, name):
    return name in named_in(expr)
