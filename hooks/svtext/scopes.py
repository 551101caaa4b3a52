"""Scopes, types and constants: what the names of SystemVerilog sources mean (IEEE 1800-2017, clauses 6, 11 and 23)."""

import math
import re
from dataclasses import dataclass, field, replace

from .declarations import FIXED, VECTORS, TypeSyntax
from .expressions import Expr, expression_of
from .notes import SourceError


class NotConstant(Exception):
    """An expression that has no constant value here, and why."""


class NoType(Exception):
    """An expression or a type whose bits aren't known here, and why."""


# ---- types


@dataclass(frozen=True)
class Integral:
    """Bits: how many, their sign, their packed dimensions, the enumeration or the structure that they are, and the word
    of their type."""

    width: int
    signed: bool = False
    spans: tuple = ()
    enum: object = None
    struct: object = None
    word: str = "logic"


@dataclass(frozen=True, eq=False)
class EnumType:
    name: str
    base: Integral
    members: tuple
    token: object


@dataclass(frozen=True, eq=False)
class StructType:
    members: tuple
    is_union: bool = False


@dataclass(frozen=True, eq=False)
class ArrayType:
    element: object
    span: object


@dataclass(frozen=True, eq=False)
class HandleType:
    """A class, or an interface behind a handle."""

    scope: object


@dataclass(frozen=True, eq=False)
class GroupType:
    symbol: object


@dataclass(frozen=True)
class OtherType:
    word: str


@dataclass(frozen=True)
class Value:
    """A constant of bits, as a number by its sign."""

    number: int
    width: int = 32
    signed: bool = True
    enum: object = None

    def as_type(self, kind):
        return Value(fitted(self.number, kind.width, kind.signed), kind.width, kind.signed, kind.enum)


BIT, INT, TIME = Integral(1), Integral(32, True, word="int"), Integral(64)


def fitted(number, width, signed):
    number &= (1 << width) - 1
    return number - (1 << width) if signed and number >> (width - 1) else number


# ---- scopes


@dataclass
class Symbol:
    kind: str
    name: str
    declared: object
    scope: object
    known: object = None
    is_open: bool = False


@dataclass(eq=False)
class Scope:
    """The names of a package, a module instance, a class or a block; `path` is its place in the hierarchy of instances."""

    kind: str
    name: str
    parent: object
    design: object
    path: str = ""
    symbols: dict = field(default_factory=dict)
    imports: list = field(default_factory=list)
    base: object = None
    news: list = field(default_factory=list)
    samples: list = field(default_factory=list)
    groups: list = field(default_factory=list)
    unit_name: str = ""
    overridden: tuple = ()

    def put(self, kind, name, declared, known=None):
        self.symbols[name] = Symbol(kind, name, declared, self, known)
        return self.symbols[name]

    def own(self, name):
        found = self.symbols.get(name)
        if found is None and self.base is not None:
            base = self.base_scope()
            found = base.own(name) if base else None
        return found

    def base_scope(self):
        if isinstance(self.base, list):
            tokens, self.base = self.base, None
            words = [it.text for it in tokens[: next((k for k, it in enumerate(tokens) if it.text in ("#", "(")), None)]]
            symbol = self.parent.find([it for it in words if it != "::"])
            self.base = symbol.known if symbol and symbol.kind == "class" else None
        return self.base

    def lookup(self, name):
        scope = self
        while scope is not None:
            found = scope.own(name) or scope.imported(name)
            if found:
                return found
            scope = scope.parent
        return None

    def imported(self, name):
        for package, word in self.imports:
            if word in ("*", name):
                scope = self.design.package(package)
                found = scope.own(name) if scope else None
                if found:
                    return found
        return None

    def find(self, names):
        """The symbol of a name, or of one in a package or a class by `::`."""
        if len(names) == 1:
            return self.lookup(names[0])
        scope = self.design.package(names[0])
        if scope is None:
            symbol = self.lookup(names[0])
            scope = symbol.known if symbol and symbol.kind == "class" else None
        if names[0] == "$unit":
            scope = self.design.unit
        return scope.find(names[1:]) if scope else None

    def above(self, *kinds):
        scope = self
        while scope is not None and scope.kind not in kinds:
            scope = scope.parent
        return scope


# ---- what a type is


def span_of(tokens, scope):
    """The two ends of a packed or unpacked dimension; of `[N]` 0 and N - 1; nothing where it is of no fixed size."""
    cut = next((k for k, it in enumerate(tokens) if it.text == ":"), None)
    try:
        if cut is None:
            return 0, number_of(expression_of(tokens), scope) - 1
        return number_of(expression_of(tokens[:cut]), scope), number_of(expression_of(tokens[cut + 1 :]), scope)
    except (SourceError, NotConstant) as error:
        raise NoType(f"the ends of a dimension aren't known: {error}") from error


def packed(base, dims, scope):
    """Packed dimensions around bits."""
    spans = tuple(span_of(it, scope) for it in dims)
    if not spans:
        return base
    count = math.prod(abs(left - right) + 1 for left, right in spans)
    if base.width == 1 and not base.spans and not base.enum and not base.struct:
        return replace(base, width=count, spans=spans)
    inner = base.spans if base.spans else ((base.width - 1, 0),)
    return Integral(base.width * count, False, spans + inner, word=base.word)


def type_of(syntax, scope):
    """The type that is written."""
    word = syntax.word
    if word in VECTORS or word == "":
        return packed(Integral(1, syntax.sign == "signed", word=word or "logic"), syntax.dims, scope)
    if word in FIXED:
        return Integral(FIXED[word], syntax.sign != "unsigned" and word != "time", word=word)
    if word == "enum":
        return packed(enumeration(syntax, scope, ""), syntax.dims, scope)
    if word in ("struct", "union"):
        return packed(structure(syntax, scope), syntax.dims, scope)
    if word == "virtual":
        unit = scope.design.modules.get(syntax.path[0])
        return HandleType(scope.design.interface(unit)) if unit else OtherType(f"virtual {syntax.path[0]}")
    if word == "name":
        return named(syntax, scope)
    if word == "array":
        return ArrayType(type_of(syntax.base, scope), None)
    return OtherType(word)


def named(syntax, scope):
    symbol = scope.find(syntax.path)
    name = "::".join(syntax.path)
    if symbol is None:
        unit = scope.design.modules.get(syntax.path[-1])
        if unit and unit.kind == "interface":
            return HandleType(scope.design.interface(unit))
        raise NoType(f"the type {name} isn't declared")
    if symbol.kind == "class":
        return HandleType(symbol.known)
    if symbol.kind == "covergroup":
        return GroupType(symbol)
    if symbol.kind != "type":
        raise NoType(f"{name} is no type")
    found = typedef(symbol)
    return packed(found, syntax.dims, scope) if isinstance(found, Integral) else found


def typedef(symbol):
    if symbol.known is None:
        declared = symbol.declared
        if declared.type.word == "enum" and not declared.type.dims:
            symbol.known = enumeration(declared.type, symbol.scope, declared.name)
        else:
            symbol.known = type_of(declared.type, symbol.scope)
        for dim in reversed(declared.dims):
            symbol.known = ArrayType(symbol.known, fixed_span(dim, symbol.scope))
    return symbol.known


def fixed_span(dim, scope):
    try:
        return span_of(dim, scope) if dim and dim[0].text != "$" else None
    except NoType:
        return None


def enumeration(syntax, scope, name):
    """The type of an enumeration (6.19): a constant without a value is one more than the one before it."""
    key = (id(syntax), id(scope))
    made = scope.design.enums
    if key not in made:
        base = type_of(syntax.base, scope) if syntax.base else INT
        members, value = [], -1
        for member in syntax.members:
            names = member_names(member, scope)
            for place, own in enumerate(names):
                value = number_of(expression_of(member.value), scope) if member.value and place == 0 else value + 1
                members.append((own, fitted(value, base.width, base.signed)))
        made[key] = replace(base, enum=EnumType(name, base, tuple(members), syntax.token))
    elif name and not made[key].enum.name:
        object.__setattr__(made[key].enum, "name", name)
    return made[key]


def member_names(member, scope):
    if not member.span:
        return [member.name]
    ends = [number_of(expression_of(it), scope) for it in _pieces(member.span)]
    low, high = (0, ends[0] - 1) if len(ends) == 1 else ends
    step = 1 if high >= low else -1
    return [f"{member.name}{it}" for it in range(low, high + step, step)]


def _pieces(tokens):
    cut = next((k for k, it in enumerate(tokens) if it.text == ":"), None)
    return [tokens] if cut is None else [tokens[:cut], tokens[cut + 1 :]]


def structure(syntax, scope):
    members = []
    for it in syntax.members:
        kind = type_of(it.type, scope)
        for dim in reversed(it.dims):
            kind = ArrayType(kind, fixed_span(dim, scope))
        members.append((it.name, kind))
    found = StructType(tuple(members), syntax.word == "union")
    widths = [it.width for _, it in members if isinstance(it, Integral)]
    if len(widths) < len(members) or not syntax.is_packed:
        return found
    width = max(widths) if found.is_union else sum(widths)
    return Integral(width, syntax.sign == "signed", struct=found)


def variable_type(symbol):
    """The type of a variable, a net or a port."""
    if symbol.known is None:
        if symbol.is_open:
            raise NoType(f"the type of {symbol.name} names itself")
        symbol.is_open = True
        declared = symbol.declared
        found = type_of(declared.type, symbol.scope)
        for dim in reversed(declared.dims):
            found = ArrayType(found, fixed_span(dim, symbol.scope))
        symbol.known, symbol.is_open = found, False
    return symbol.known


# ---- literals


def literal(text):
    """The value of a literal; a literal with x, z or ? has none."""
    found = re.fullmatch(r"(\d[\d_]*)?\s*'([sS]?)([bodhBODH])\s*([\w?]+)", text)
    if not found:
        if text.startswith("'"):
            return Value(int(text[1]), 1, False) if text[1] in "01" else None
        return Value(fitted(int(text.replace("_", "")), 32, True))
    size, sign, base, digits = found.groups()
    digits = digits.replace("_", "")
    if re.search("[xXzZ?]", digits):
        return None
    width = int(size.replace("_", "")) if size else 32
    number = int(digits, {"b": 2, "o": 8, "d": 10, "h": 16}[base.lower()])
    return Value(fitted(number, width, bool(sign)), width, bool(sign))


# ---- the type of an expression


COMPARISONS = {"==", "!=", "===", "!==", "==?", "!=?", "<", "<=", ">", ">=", "&&", "||", "->", "<->"}
INTS = {"$countones", "$clog2", "$bits", "$size", "$high", "$low", "$left", "$right", "$countbits", "$dimensions"}
BITS = {"$onehot", "$onehot0", "$isunknown", "$rose", "$fell", "$stable", "$changed"}


def shape(expr, scope):
    """The type of an expression, Integral where it is of bits."""
    method = SHAPES.get(expr.kind)
    if method is None:
        raise NoType(f"{expr.source} has no type")
    return method(expr, scope)


def bits(expr, scope):
    found = shape(expr, scope)
    if not isinstance(found, Integral):
        raise NoType(f"{expr.source} isn't a number of bits")
    return found


def _number(expr, scope):
    value = literal(expr.text)
    if value:
        return Integral(value.width, value.signed)
    found = re.match(r"(\d+)?\s*'([sS]?)", expr.text)
    return Integral(int(found[1]) if found and found[1] else 32, bool(found and found[2]))


def _name(expr, scope):
    symbol = scope.lookup(expr.text)
    if symbol is None:
        raise NoType(f"{expr.text} isn't declared in what was read")
    return symbol_type(symbol)


def symbol_type(symbol):
    if symbol.kind in ("variable", "formal", "argument", "handle"):
        return variable_type(symbol)
    if symbol.kind == "parameter":
        value = parameter(symbol)
        if isinstance(value, Value):
            return Integral(value.width, value.signed, enum=value.enum)
    if symbol.kind == "constant":
        return symbol.known
    if symbol.kind == "value":
        return Integral(symbol.known.width, symbol.known.signed)
    if symbol.kind == "clocking":
        return symbol
    if symbol.kind == "instance":
        return HandleType(symbol.known)
    raise NoType(f"{symbol.name} is no variable")


def _scoped(expr, scope):
    symbol = scope.find(names_of(expr))
    if symbol is None:
        raise NoType(f"{expr.source} isn't declared in what was read")
    return symbol_type(symbol)


def names_of(expr):
    return [expr.text] if expr.kind in ("name", "system") else names_of(expr.parts[0]) + [expr.text]


def _member(expr, scope):
    if expr.parts[0].kind == "name" and expr.parts[0].text in ("this", "super"):
        owner = scope.above("class")
        symbol = owner and owner.own(expr.text)
        if symbol is None:
            raise NoType(f"{expr.source} isn't declared in what was read")
        return symbol_type(symbol)
    base = shape(expr.parts[0], scope)
    if isinstance(base, Symbol):  # a clocking block
        for name, tokens in base.declared.signals:
            if name == expr.text:
                return shape(expression_of(tokens), base.scope)
    struct = base.struct if isinstance(base, Integral) else base
    if isinstance(struct, StructType):
        for name, kind in struct.members:
            if name == expr.text:
                return kind
    if isinstance(base, HandleType) and base.scope:
        symbol = base.scope.own(expr.text)
        if symbol and symbol.kind != "function":
            return symbol_type(symbol)
    return method_type(expr, base)


def method_type(expr, base):
    """The type of a method that is called without parentheses."""
    if isinstance(base, Integral) and base.enum and expr.text in ("first", "last", "next", "prev"):
        return base
    if expr.text in ("size", "num", "len"):
        return INT
    if isinstance(base, HandleType) and base.scope:
        symbol = base.scope.own(expr.text)
        if symbol and symbol.kind == "function":
            return type_of(symbol.declared.type, symbol.scope)
    raise NoType(f"{expr.source} isn't declared in what was read")


def _select(expr, scope):
    base = shape(expr.parts[0], scope)
    if isinstance(base, ArrayType):
        return base.element
    return element_of(base, expr)


def element_of(base, expr):
    if not isinstance(base, Integral):
        raise NoType(f"{expr.source} selects nothing that is known")
    rest = base.spans[1:]
    width = math.prod(abs(left - right) + 1 for left, right in rest)
    return Integral(width, False, rest)


def _slice(expr, scope):
    base = bits(expr.parts[0], scope)
    if expr.text == ":":
        ends = [number_of(it, scope) for it in expr.parts[1:]]
        width = abs(ends[0] - ends[1]) + 1
    else:
        width = number_of(expr.parts[2], scope)
    return Integral(width * (element_of(base, expr).width if len(base.spans) > 1 else 1))


def _call(expr, scope):
    base = expr.parts[0]
    if base.kind == "member":
        return method_type(base, shape(base.parts[0], scope))
    symbol = scope.find(names_of(base))
    if symbol is None or symbol.kind != "function":
        raise NoType(f"the function {base.source} isn't declared in what was read")
    return type_of(symbol.declared.type, symbol.scope)


def _system(expr, scope):
    if expr.text in INTS:
        return INT
    if expr.text in BITS:
        return BIT
    if expr.text in ("$time", "$realtime", "$stime"):
        return TIME
    if expr.text in ("$signed", "$unsigned", "$past", "$sampled") and expr.parts:
        return Integral(bits(expr.parts[0], scope).width, expr.text == "$signed")
    raise NoType(f"the type of {expr.text} isn't known")


def _cast(expr, scope):
    target, inner = expr.parts
    if target.kind == "type" and target.text in ("signed", "unsigned"):
        return Integral(bits(inner, scope).width, target.text == "signed")
    if target.kind == "type":
        word, _, sign = target.text.partition(" ")
        return type_of(TypeSyntax(word, target.token, sign=sign), scope)
    if target.kind in ("name", "scoped"):
        symbol = scope.find(names_of(target))
        if symbol and symbol.kind == "type":
            return typedef(symbol)
    return Integral(number_of(target, scope), bits(inner, scope).signed)


def _binary(expr, scope):
    if expr.text in COMPARISONS:
        return BIT
    left = bits(expr.parts[0], scope)
    if expr.text in ("<<", ">>", "<<<", ">>>", "**"):
        return Integral(left.width, left.signed)
    right = bits(expr.parts[1], scope)
    return Integral(max(left.width, right.width), left.signed and right.signed)


def _unary(expr, scope):
    inner = bits(expr.parts[0], scope)
    return Integral(inner.width, inner.signed) if expr.text in "+-~" else BIT


def _ternary(expr, scope):
    then, other = (bits(it, scope) for it in expr.parts[1:])
    if then.enum and then.enum is other.enum:
        return then
    return Integral(max(then.width, other.width), then.signed and other.signed)


SHAPES = {
    "number": _number,
    "name": _name,
    "scoped": _scoped,
    "member": _member,
    "select": _select,
    "slice": _slice,
    "call": _call,
    "system": _system,
    "cast": _cast,
    "binary": _binary,
    "unary": _unary,
    "ternary": _ternary,
    "inside": lambda expr, scope: BIT,
    "paren": lambda expr, scope: shape(expr.parts[0], scope),
    "concatenation": lambda expr, scope: Integral(sum(bits(it, scope).width for it in expr.parts)),
    "replication": lambda expr, scope: Integral(
        number_of(expr.parts[0], scope) * bits(expr.parts[1], scope).width
    ),
}


# ---- the value of a constant expression


def number_of(expr, scope):
    value = constant(expr, scope)
    if not isinstance(value, Value):
        raise NotConstant(f"{expr.source} is no number")
    return value.number


def constant(expr, scope):
    """The value of a constant expression, with the widths and signs of 11.6 to 11.8."""
    if expr.kind == "pattern":
        return tuple(constant(it, scope) for it in expr.parts)
    if expr.kind == "string":
        return expr.text
    if expr.kind == "paren":
        return constant(expr.parts[0], scope)
    if expr.kind in ("name", "scoped"):
        return named_value(expr, scope)
    try:
        own = bits(expr, scope)
        number = evaluated(expr, scope, own.width, own.signed)
    except NoType as error:
        raise NotConstant(str(error)) from error
    return Value(fitted(number, own.width, own.signed), own.width, own.signed, own.enum)


def named_value(expr, scope):
    symbol = scope.find(names_of(expr))
    if symbol is None:
        raise NotConstant(f"{expr.source} isn't declared in what was read")
    if symbol.kind == "parameter":
        return parameter(symbol)
    if symbol.kind == "constant":
        kind = symbol.known
        number = next(value for name, value in kind.enum.members if name == symbol.name)
        return Value(number, kind.width, kind.signed, kind.enum)
    if symbol.kind == "value":
        return symbol.known
    raise NotConstant(f"{expr.source} is no constant")


def parameter(symbol):
    """The value of a parameter, in its type where it has one (6.20.2)."""
    if symbol.known is None:
        if symbol.is_open:
            raise NotConstant(f"{symbol.name} names itself")
        declared = symbol.declared
        if not declared.value:
            raise NotConstant(f"the parameter {symbol.name} has no value here")
        symbol.is_open = True
        try:
            kind = parameter_type(declared.type, symbol.scope)
            symbol.known = typed_value(expression_of(declared.value), kind, symbol.scope)
        except SourceError as error:
            raise NotConstant(error.why) from error
        finally:
            symbol.is_open = False
    return symbol.known


def parameter_type(syntax, scope):
    """The type that is written for a parameter, if one is and it is of bits; of an array, that of its elements."""
    if syntax.word == "array":
        return parameter_type(syntax.base, scope)
    if syntax.word == "" and not syntax.dims and not syntax.sign:
        return None
    try:
        kind = type_of(syntax, scope)
    except NoType:
        return None
    return kind if isinstance(kind, Integral) else None


def typed_value(expr, kind, scope):
    """The value of an expression that is assigned to a type (10.7)."""
    if expr.kind == "pattern":
        return tuple(typed_value(it, kind, scope) for it in expr.parts)
    value = constant(expr, scope)
    if kind is None or not isinstance(value, Value):
        return value
    if kind.width > value.width:
        value = Value(evaluated(expr, scope, kind.width, value.signed), kind.width, value.signed)
    return value.as_type(kind)


def evaluated(expr, scope, width, signed):
    """The number of an expression where `width` bits are wanted."""
    kind, parts = expr.kind, expr.parts
    if kind == "number":
        value = literal(expr.text)
        if value is None:
            raise NotConstant(f"{expr.text} has unknown bits")
        if expr.text.startswith("'") and expr.text[1] in "01":
            return fitted(-value.number, width, signed)
        return fitted(value.number, width, signed)
    if kind == "paren":
        return evaluated(parts[0], scope, width, signed)
    if kind == "unary":
        return unary(expr, scope, width, signed)
    if kind == "binary":
        return binary(expr, scope, width, signed)
    if kind == "ternary":
        chosen = parts[1] if number_of(parts[0], scope) else parts[2]
        return evaluated(chosen, scope, width, signed)
    if kind == "concatenation":
        return joined([constant(it, scope) for it in parts])
    if kind == "replication":
        return joined([constant(parts[1], scope)] * number_of(parts[0], scope))
    if kind == "cast":
        target = bits(expr, scope)
        return fitted(fitted(number_of(parts[1], scope), target.width, target.signed), width, signed)
    if kind == "system":
        return system(expr, scope)
    if kind in ("select", "slice"):
        return selected(expr, scope)
    if kind in ("member", "call"):
        return fitted(enum_end(expr, scope), width, signed)
    return fitted(number_of(expr, scope), width, signed)


def unary(expr, scope, width, signed):
    (inner,) = expr.parts
    if expr.text in "+-~":
        number = evaluated(inner, scope, width, signed)
        return fitted({"+": number, "-": -number, "~": ~number}[expr.text], width, signed)
    own = bits(inner, scope)
    number = number_of(inner, scope) & ((1 << own.width) - 1)
    full, odd = number == (1 << own.width) - 1, bin(number).count("1") % 2
    table = {"!": number == 0, "&": full, "~&": not full, "|": number != 0, "~|": number == 0, "^": odd == 1}
    return int(table.get(expr.text, odd == 0))


def binary(expr, scope, width, signed):
    left, right = expr.parts
    word = expr.text
    if word in ("&&", "||", "->", "<->"):
        a, b = number_of(left, scope) != 0, number_of(right, scope) != 0
        return int({"&&": a and b, "||": a or b, "->": not a or b, "<->": a == b}[word])
    if word in COMPARISONS:
        kinds = bits(left, scope), bits(right, scope)
        wide, sign = max(it.width for it in kinds), all(it.signed for it in kinds)
        a, b = evaluated(left, scope, wide, sign), evaluated(right, scope, wide, sign)
        if word[0] == "!":
            return int(a != b)
        return int({"<": a < b, "<=": a <= b, ">": a > b, ">=": a >= b}.get(word, a == b))
    a = evaluated(left, scope, width, signed)
    if word in ("<<", "<<<", ">>", ">>>", "**"):
        b = number_of(right, scope)
        return fitted(shifted(word, a, b, width), width, signed)
    b = evaluated(right, scope, width, signed)
    if word in "/%" and b == 0:
        raise NotConstant(f"{expr.source} divides by 0")
    table = {
        "+": lambda: a + b, "-": lambda: a - b, "*": lambda: a * b, "&": lambda: a & b, "|": lambda: a | b,
        "^": lambda: a ^ b, "~^": lambda: ~(a ^ b), "^~": lambda: ~(a ^ b),
        "/": lambda: abs(a) // abs(b) * (1 if (a < 0) == (b < 0) else -1),
        "%": lambda: abs(a) % abs(b) * (-1 if a < 0 else 1),
    }  # fmt: skip
    return fitted(table[word](), width, signed)


def shifted(word, a, b, width):
    if word == "**":
        if b < 0:
            raise NotConstant("a power below 0")
        return pow(a, b, 1 << width) if a >= 0 else a**b
    if word in ("<<", "<<<"):
        return a << min(b, width)
    return a >> min(b, width) if word == ">>>" else (a & ((1 << width) - 1)) >> min(b, width)


def joined(values):
    number = 0
    for it in values:
        number = number << it.width | it.number & ((1 << it.width) - 1)
    return number


def system(expr, scope):
    if expr.text == "$clog2":
        number = number_of(expr.parts[0], scope)
        return max(number - 1, 0).bit_length()
    if expr.text == "$bits":
        return bits_of(expr.parts[0], scope)
    if expr.text in ("$signed", "$unsigned"):
        own = bits(expr, scope)
        return fitted(number_of(expr.parts[0], scope), own.width, own.signed)
    if expr.text in ("$countones", "$onehot", "$onehot0"):
        own = bits(expr.parts[0], scope)
        ones = bin(number_of(expr.parts[0], scope) & ((1 << own.width) - 1)).count("1")
        return {"$countones": ones, "$onehot": int(ones == 1), "$onehot0": int(ones < 2)}[expr.text]
    raise NotConstant(f"{expr.source} isn't worked out here")


def bits_of(expr, scope):
    if expr.kind == "type":
        word, _, sign = expr.text.partition(" ")
        return type_of(TypeSyntax(word, expr.token, sign=sign), scope).width
    if expr.kind in ("name", "scoped"):
        symbol = scope.find(names_of(expr))
        if symbol and symbol.kind == "type":
            found = typedef(symbol)
            if isinstance(found, Integral):
                return found.width
    return bits(expr, scope).width


def selected(expr, scope):
    base = constant(expr.parts[0], scope)
    if isinstance(base, tuple):
        return base[number_of(expr.parts[1], scope)].number
    low = number_of(expr.parts[1], scope)
    width = bits(expr, scope).width
    if expr.kind == "slice":
        other = number_of(expr.parts[2], scope)
        low = min(low, other) if expr.text == ":" else low if expr.text == "+:" else low - other + 1
    return base.number >> (low * width if expr.kind == "select" else low) & ((1 << width) - 1)


def enum_end(expr, scope):
    """`first`, `last` and `num` of an enumeration or a variable of one."""
    if expr.kind == "call":
        expr = expr.parts[0]
    if expr.kind == "member" and expr.text in ("first", "last", "num"):
        kind = enum_named(expr.parts[0], scope)
        if kind is not None and kind.enum:
            members = kind.enum.members
            return {"first": members[0][1], "last": members[-1][1], "num": len(members)}[expr.text]
    raise NotConstant(f"{expr.source} is no constant")


def enum_named(expr, scope):
    if expr.kind in ("name", "scoped"):
        symbol = scope.find(names_of(expr))
        if symbol and symbol.kind == "type":
            found = typedef(symbol)
            return found if isinstance(found, Integral) else None
    try:
        return bits(expr, scope)
    except NoType:
        return None


