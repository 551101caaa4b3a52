"""Covergroups in the profile of docs/FORMATS.md: each member as it is written, with what its expressions read."""

from dataclasses import dataclass, field, replace

from .book import WIDEST, literal_of, name_of
from .declarations import Parser
from .expressions import Reader, Tokens, expression, expression_of, spelled, split
from .notes import SourceError
from .readings import CannotSay, Speaker
from .scopes import (
    BIT, HandleType, Integral, NotConstant, NoType, OtherType, Scope, Symbol, Value, bits, constant, literal, number_of, shape,
    type_of, variable_type,
)  # fmt: skip
from .source import NAME, OPERATOR, STRING, Token

MOST_ARGUMENTS = 16
OPTIONS = {
    "option": "weight goal name comment at_least detect_overlap auto_bin_max cross_num_print_missing per_instance"
    " get_inst_coverage".split(),
    "type_option": "weight goal comment strobe merge_instances distribute_first".split(),
}
TEXTS = ("name", "comment")
BINS = ("bins", "illegal_bins", "ignore_bins")
BINNED = ("bins ", "wildcard bins")
MOST_NUMBERS = 4096
BRACES = Token(OPERATOR, "{", "-", 0), Token(OPERATOR, "}", "-", 0)
REFUSALS = (CannotSay, SourceError, NotConstant, NoType)


@dataclass
class Formal:
    name: str
    text: str
    kind: str  # `value`, `ref`, `handle` or `none`
    type: object
    default: list
    token: object


@dataclass
class GroupText:
    """A covergroup of one scope as it is written."""

    declared: object
    scope: object
    speaker: Speaker
    formals: list = field(default_factory=list)
    event: str = ""
    is_sampled: bool = False
    own_arguments: list = field(default_factory=list)
    members: list = field(default_factory=list)
    name: str = ""
    refs: list = field(default_factory=list)

    def signals(self):
        """What it reads of variables, in the order of its text."""
        return [it for it in self.speaker.readings.values() if it.argument is None]

    def arguments(self):
        found = [it for it in self.speaker.readings.values() if it.argument is not None]
        return sorted(found, key=lambda it: it.argument)

    def body(self):
        return (self.event, self.is_sampled, tuple(self.members), tuple(it.text for it in self.formals if it.text))

    def lines(self):
        formals = [f"ref {self.speaker.book.type_text(it.type)} {it.name}" for it in self.refs]
        formals += [it.text for it in self.formals if it.text]
        head = f"covergroup {self.name}" + (f"({', '.join(formals)})" if formals else "")
        if self.is_sampled:
            words = [f"{self.speaker.book.type_text(it.type)} {it.name}" for it in self.arguments()]
            head += f" with function sample({', '.join(words)})"
        elif self.event:
            head += f" {self.event}"
        return [head + ";", *(f"  {it}" for it in self.members), "endgroup"]


class Writer:
    """Writes one covergroup of one scope."""

    def __init__(self, symbol, scope, book, notes):
        self.declared = symbol.declared
        inner = Scope("covergroup", self.declared.name, scope, scope.design, scope.path)
        self.scope, self.book, self.notes = inner, book, notes
        self.speaker = Speaker(inner, book, notes)
        self.text = GroupText(self.declared, scope, self.speaker)
        self.labels, self.dropped, self.place = {}, set(), 0

    def write(self):
        self.formals()
        self.samples()
        self.event()
        self.members()
        self.overflow()
        return self.text

    # ---- the head

    def formals(self):
        for it in Parser(self.declared.formals, self.notes).formals(self.declared.formals):
            kind = self.formal_type(it)
            symbol = Symbol("handle" if isinstance(kind, HandleType) else "formal", it.name, it, self.scope, kind)
            self.scope.symbols[it.name] = symbol
            formal = Formal(it.name, "", "none", kind, it.value, it.token)
            if isinstance(kind, HandleType):
                symbol.kind, formal.kind = "variable", "handle"
                self.scope.symbols[it.name] = Handle(it.name, it, self.scope, kind)
                self.notes.changed(it.token, f"the formal {it.name} is a `ref` formal for each of its members that is read")
            elif isinstance(kind, Integral) and kind.width <= WIDEST:
                formal.kind = "ref" if it.direction == "ref" else "value"
                formal.text = self.formal_text(it, kind)
                self.speaker.names.take(it.name)
            elif isinstance(kind, OtherType) and kind.word == "string":
                del self.scope.symbols[it.name]
                self.notes.changed(it.token, f"the formal {it.name} of type string isn't there")
            else:
                del self.scope.symbols[it.name]
                self.notes.left_out(it.token, f"the formal {it.name}, whose type a design text hasn't")
            self.text.formals.append(formal)

    def formal_type(self, it):
        try:
            kind = variable_type(Symbol("formal", it.name, it, self.scope))
            return kind if not it.dims else OtherType("array")
        except NoType:
            return OtherType("unknown")

    def formal_text(self, it, kind):
        word = "ref " if it.direction == "ref" else ""
        default = ""
        if it.value:
            default = f" = {self.speaker.constant(expression_of(it.value))}"
        return f"{word}{self.book.type_text(kind, name_of(it.name) + '_t')} {it.name}{default}"

    def samples(self):
        if self.declared.sample is None:
            return
        self.text.is_sampled = True
        for place, it in enumerate(Parser(self.declared.sample, self.notes).formals(self.declared.sample)):
            kind = self.formal_type(it)
            symbol = Argument(it.name, it, self.scope, kind, place)
            self.scope.symbols[it.name] = symbol
            if it.value:
                self.notes.changed(it.token, f"the default of the sample argument {it.name} isn't there; each call tells it")
            if isinstance(kind, Integral) and kind.width <= WIDEST and not kind.struct:
                self.speaker.reading(expression_of([it.token]))

    def event(self):
        tokens = self.declared.event
        if not tokens:
            return
        try:
            self.speaker.is_event = True
            self.text.event = "@(" + " or ".join(self.edges(tokens)) + ")"
        except REFUSALS as error:
            self.notes.left_out(tokens[0], f"the event {spelled(tokens)}, as {error}; sample by calls")
        finally:
            self.speaker.is_event = False

    def behind(self, expr, tokens):
        """The event of a clocking block as its group sees it: behind the handle or the instance that the block is of."""
        if expr.kind != "member":
            return tokens
        before = []
        inner = expr.parts[0]
        while inner.kind == "member":
            before = [replace(inner.token, text=inner.text), replace(inner.token, kind=OPERATOR, text=".", joined=True), *before]
            inner = inner.parts[0]
        before = [inner.token, replace(inner.token, kind=OPERATOR, text=".", joined=True), *before]
        found = []
        for it in tokens:
            is_name = it.kind == NAME and it.text not in ("posedge", "negedge", "edge", "or", "iff")
            found += [*before, replace(it, joined=True)] if is_name else [it]
        return found

    def edges(self, tokens):
        walk = Tokens(tokens)
        if walk.takes("@@"):
            raise CannotSay("a design text has no block events")
        walk.wants("@")
        inner = walk.bracketed() if walk.sees("(") else tokens[1:]
        return [text for piece in split(inner) for own in split(piece, "or") for text in self.edge(own)]

    def edge(self, tokens):
        walk = Tokens(tokens)
        word = walk.takes("posedge", "negedge", "edge")
        expr = expression(walk)
        if expr.kind in ("name", "member") and not word:
            block = self.clocking(expr)
            if block is not None:
                event = self.behind(expr, block.declared.event)
                self.notes.changed(expr.token, f"the event {expr.source} is {spelled(event)} here")
                return self.edges(event)
        if expr.kind not in ("name", "member", "scoped"):
            raise CannotSay(f"{expr.source} is no name")
        text = f"{word.text} " if word else ""
        text += self.clock(expr) if word else self.speaker.value(expr)
        if walk.takes("iff"):
            text += f" iff {self.speaker.condition(expression(walk))}"
        return [text]

    def clock(self, expr):
        """The name behind an edge, which is a bit where it isn't declared in what was read."""
        try:
            return self.speaker.value(expr)
        except CannotSay:
            if self.is_declared(expr):
                raise
            self.notes.note(expr.token, f"{expr.source} isn't declared in what was read; it is taken as one bit")
            return self.speaker.reading(expr, BIT).name

    def is_declared(self, expr):
        try:
            shape(expr, self.scope)
        except (NoType, NotConstant):
            return False
        return True

    def clocking(self, expr):
        try:
            found = shape(expr, self.scope)
        except (NoType, NotConstant):
            return None
        return found if isinstance(found, Symbol) and found.kind == "clocking" else None

    def overflow(self):
        """Arguments past the sixteenth are variables: a call sets them before it samples."""
        for it in self.text.arguments()[MOST_ARGUMENTS:]:
            it.argument = None
            self.notes.changed(it.token, f"the argument {it.name}, the seventeenth or a later one, is a variable here")

    # ---- members

    def members(self):
        walk = Tokens(self.declared.body)
        while not walk.is_done():
            start = walk.now
            at = walk.at
            try:
                self.text.members.extend(self.member(walk))
            except REFUSALS as error:
                label = self.label_at(walk, at)
                if label:
                    self.dropped.add(label)
                what = spelled(walk.tokens[at : at + 8]).split("{")[0].split(";")[0]
                self.notes.left_out(start, f"{what}: {getattr(error, 'why', error)}")
                walk.at = at
                self.pass_member(walk)

    def label_at(self, walk, at):
        return walk.tokens[at].text if at + 1 < len(walk.tokens) and walk.tokens[at + 1].text == ":" else ""

    def pass_member(self, walk):
        while not walk.is_done():
            if walk.takes(";"):
                return
            if walk.sees("{"):
                is_body = walk.at > 0 and walk.tokens[walk.at - 1].text not in ("coverpoint", "intersect", "=", ",", "(", "inside")
                walk.bracketed()
                if is_body:
                    walk.takes(";")
                    return
            else:
                walk.next()

    def member(self, walk):
        if walk.takes(";"):
            return []
        if walk.sees("option", "type_option"):
            return self.option(walk)
        label = None
        cast = []
        if walk.now.kind == NAME and walk.ahead().text == ":":
            label = walk.next()
            walk.next()
        elif not walk.sees("coverpoint", "cross"):
            cast = walk.until("coverpoint")
            if walk.is_done():
                raise CannotSay("a design text has no such member")
            if len(cast) > 1 and cast[-1].text == ":":
                label, cast = cast[-2], cast[:-2]
        if walk.takes("coverpoint"):
            return self.point(walk, label, cast)
        walk.wants("cross")
        return self.cross(walk, label)

    def option(self, walk):
        word = walk.next()
        walk.wants(".")
        name = walk.name().text
        walk.wants("=")
        value = walk.until(";")
        walk.takes(";")
        if name not in OPTIONS[word.text]:
            self.notes.left_out(word, f"{word.text}.{name}, which a design text hasn't")
            return []
        if name in TEXTS:
            if len(value) == 1 and value[0].kind == STRING and "\\" not in value[0].text:
                return [f"{word.text}.{name} = {value[0].text};"]
            self.notes.changed(word, f"{word.text}.{name} = {spelled(value)} isn't there")
            return []
        return [f"{word.text}.{name} = {self.speaker.constant(expression_of(value))};"]

    def guard(self, walk):
        if not walk.takes("iff"):
            return ""
        if not walk.sees("("):
            raise CannotSay("a condition has no parentheses")
        return f" iff ({self.speaker.condition(expression_of(walk.bracketed()))})"

    def point(self, walk, label, cast):
        token = walk.now
        expr = expression(walk)
        kind = self.type_of(expr)
        place, self.place = self.place, self.place + 1
        text = self.typed(cast, expr, label) if cast else self.speaker.value(expr)
        own = label.text if label else text if text.isidentifier() else f"point_{place}"
        shown = f"{own}: " if label else ""
        guard = self.guard(walk)
        self.labels[own] = token
        lines = [f"{shown}coverpoint {text}{guard}"]
        if walk.takes(";"):
            return [lines[0] + ";"]
        body = Tokens(walk.bracketed())
        walk.takes(";")
        inner = self.entries(body, lambda: self.bin(body, kind, own), own)
        if any(it.text == "bins" for it in body.tokens) and not any(" ".join(it.split()[:2]).startswith(BINNED) for it in inner):
            del self.labels[own]
            raise CannotSay("none of its bins can be said")
        return [lines[0] + " {", *(f"  {it}" for it in inner), "}"]

    def typed(self, cast, expr, label):
        """A point with a type (19.5): its expression is assigned to it."""
        kind = type_of(Parser(list(cast), self.notes).type(), self.scope)
        if not isinstance(kind, Integral) or kind.width > WIDEST:
            raise CannotSay(f"a point of the type {spelled(cast)}")
        own = self.type_of(expr)
        if own and (own.width, own.signed, own.enum) == (kind.width, kind.signed, kind.enum):
            return self.speaker.value(expr)
        name = f"{label.text}_value" if label else name_of(expr.source)
        word = spelled(cast) if kind.enum or " " not in spelled(cast) else f"{kind.width}"
        return self.speaker.computed(name, kind, f"{word}'({expr.source})", expr)

    def type_of(self, expr):
        try:
            return bits(expr, self.scope)
        except (NoType, NotConstant):
            return None

    def entries(self, body, entry, own):
        """Options and bins in braces; one that can't be said is left out by itself."""
        lines = []
        while not body.is_done():
            start, at = body.now, body.at
            try:
                if body.takes(";"):
                    continue
                lines += self.option(body) if body.sees("option", "type_option") else entry()
            except REFUSALS as error:
                body.at = at
                what = spelled(body.until(";"))
                body.takes(";")
                self.notes.left_out(start, f"{what} of {own}: {getattr(error, 'why', error)}")
        return lines

    # ---- bins of points

    def bin(self, walk, kind, own):
        text = "wildcard " if walk.takes("wildcard") else ""
        self.speaker.is_wildcard = bool(text)
        if not walk.sees(*BINS):
            raise CannotSay("bins are wanted here")
        text += walk.next().text + " " + walk.name().text
        if walk.sees("["):
            size = walk.bracketed()
            text += f"[{self.speaker.constant(expression_of(size)) if size else ''}]"
        walk.wants("=")
        try:
            text += " = " + self.bin_values(walk, kind, own)
        finally:
            self.speaker.is_wildcard = False
        text += self.guard(walk)
        walk.wants(";")
        return [text + ";"]

    def bin_values(self, walk, kind, own):
        if walk.takes("default"):
            return "default sequence" if walk.takes("sequence") else "default"
        if walk.sees("{"):
            inner = walk.bracketed()
            at = walk.at
            try:
                return "{ " + self.elements(inner, kind) + " }" + self.filter(walk)
            except CannotSay:
                walk.at = at
                if not walk.sees("with"):
                    raise
                return self.worked_out(walk, inner, kind)
        if walk.sees("("):
            steps = [self.sequence(walk, kind)]
            while walk.takes(","):
                steps.append(self.sequence(walk, kind))
            return ", ".join(steps)
        if walk.now.kind == NAME and walk.ahead().text == "with":
            name, at = walk.next().text, walk.at
            try:
                return (own if name in self.labels or name == own else name) + self.filter(walk)
            except CannotSay:
                walk.at = at
                return self.worked_out(walk, None, kind)
        expr = expression(walk)
        values = constant(expr, self.scope)
        if not isinstance(values, tuple):
            raise CannotSay(f"{expr.source} is no set of values that is known here")
        self.notes.note(expr.token, f"{expr.source} is written out here")
        if any(it.width > WIDEST for it in values):
            raise CannotSay(f"{expr.source} has values of more than {WIDEST} bits")
        return "{ " + ", ".join(literal_of(it) for it in values) + " }"

    def filter(self, walk):
        if not walk.takes("with"):
            return ""
        self.speaker.has_item = True
        try:
            return f" with ({self.speaker.constant(expression_of(walk.bracketed()))})"
        finally:
            self.speaker.has_item = False

    def worked_out(self, walk, tokens, kind):
        """The numbers of a list, or of the whole point, that a condition keeps, written out."""
        token = walk.wants("with")
        condition = expression_of(walk.bracketed())
        if kind is None or kind.width > WIDEST:
            raise CannotSay("the type of the point isn't known")
        numbers = self.listed(tokens, kind)
        kept = [it for it in numbers if self.keeps(condition, it, kind)]
        if not kept:
            raise CannotSay(f"the condition {condition.source} keeps nothing")
        self.notes.changed(token, f"the {len(kept)} numbers that {condition.source} keeps are written out")
        return "{ " + ", ".join(runs(kept, kind)) + " }"

    def listed(self, tokens, kind):
        low, high = (-(1 << kind.width - 1), (1 << kind.width - 1) - 1) if kind.signed else (0, (1 << kind.width) - 1)
        if tokens is None:
            spans = [(low, high)]
        else:
            spans = [self.numbers(it, low, high) for it in Reader(Tokens([*BRACES[:1], *tokens, *BRACES[1:]])).ranges()]
        if sum(max(last - first + 1, 0) for first, last in spans) > MOST_NUMBERS:
            raise CannotSay(f"a condition over more than {MOST_NUMBERS} numbers")
        return [it for first, last in spans for it in range(max(first, low), min(last, high) + 1)]

    def numbers(self, expr, low, high):
        if expr.kind != "range":
            number = number_of(expr, self.scope)
            return number, number
        first, last = expr.parts
        return (
            low if first.kind == "dollar" else number_of(first, self.scope),
            high if last.kind == "dollar" else number_of(last, self.scope),
        )

    def keeps(self, condition, number, kind):
        inner = Scope("item", "item", self.scope, self.scope.design)
        inner.put("value", "item", None, Value(number, kind.width, kind.signed))
        return number_of(condition, inner) != 0

    def elements(self, tokens, kind):
        if not tokens:
            raise CannotSay("a list without values")
        walk, found = Tokens(tokens), []
        while True:
            found.append(self.element(walk, kind))
            if not walk.takes(","):
                break
        if not walk.is_done():
            raise CannotSay(f"no value goes on with {walk.now.text}")
        return ", ".join(found)

    def element(self, walk, kind):
        if walk.sees("["):
            low, high = self.span(walk.bracketed())
            return f"[{self.end(low, kind)}:{self.end(high, kind)}]"
        return self.constant(expression(walk), kind)

    def span(self, tokens):
        if any(it.text == "+/-" for it in tokens):
            raise CannotSay("a design text has no +/- in a range")
        pieces = split(tokens, ":")
        if len(pieces) != 2:
            raise CannotSay(f"[{spelled(tokens)}] is no range")
        return pieces

    def end(self, tokens, kind):
        return "$" if len(tokens) == 1 and tokens[0].text == "$" else self.constant(expression_of(tokens), kind)

    def constant(self, expr, kind):
        """A value of bins; '1 has the width of the point."""
        if expr.kind == "number" and expr.text == "'1" and kind is not None:
            return f"{kind.width}'h{(1 << kind.width) - 1:X}"
        return self.speaker.constant(expr)

    def sequence(self, walk, kind):
        steps = split(walk.bracketed(), "=>")
        return "(" + " => ".join(self.step(it, kind) for it in steps) + ")"

    def step(self, tokens, kind):
        walk, repeat = Tokens(tokens), ""
        values = []
        while True:
            values.append(self.element(walk, kind))
            if not walk.takes(","):
                break
        if walk.sees("["):
            inner = Tokens(walk.bracketed())
            word = inner.next().text
            ends = split(inner.tokens[inner.at :], ":")
            repeat = f" [{word} " + ":".join(self.speaker.constant(expression_of(it)) for it in ends) + "]"
        if not walk.is_done():
            raise CannotSay(f"no step of a sequence goes on with {walk.now.text}")
        return ", ".join(values) + repeat

    # ---- crosses

    def cross(self, walk, label):
        token = walk.now
        lines, names = [], []
        for piece in split(walk.until("iff", "{", ";")):
            made, name = self.crossed(piece)
            lines += made
            names.append(name)
        shown = f"{label.text}: " if label else ""
        head = f"{shown}cross {', '.join(names)}{self.guard(walk)}"
        own = label.text if label else "the cross"
        self.labels[own] = token
        if walk.takes(";"):
            return [*lines, head + ";"]
        body = Tokens(walk.bracketed())
        walk.takes(";")
        inner = self.entries(body, lambda: self.cross_bin(body), own)
        return [*lines, head + " {", *(f"  {it}" for it in inner), "}"]

    def crossed(self, tokens):
        """A point of a cross by its name; what has no point yet and can have none by itself gets one without weight."""
        if len(tokens) == 1 and tokens[0].text in self.labels:
            return [], tokens[0].text
        if len(tokens) == 1 and tokens[0].text in self.dropped:
            raise CannotSay(f"the point {tokens[0].text} was left out")
        expr = expression_of(tokens)
        text = self.speaker.value(expr)
        if text in self.labels:
            return [], text
        if text.isidentifier() and not self.is_argument(text):
            return [], text
        if not text.isidentifier():
            raise CannotSay(f"{expr.source} is no point and no variable")
        self.notes.changed(expr.token, f"{expr.source} has a point {text} of weight 0 for its crosses")
        self.labels[text] = expr.token
        self.place += 1
        return [f"{text}: coverpoint {text} {{ option.weight = 0; type_option.weight = 0; }}"], text

    def is_argument(self, name):
        return any(it.name == name and it.argument is not None for it in self.speaker.readings.values())

    def cross_bin(self, walk):
        if not walk.sees(*BINS):
            raise CannotSay("a design text has no such member of a cross")
        text = walk.next().text + " " + walk.name().text
        walk.wants("=")
        text += f" = {self.selection(walk)}{self.guard(walk)}"
        walk.wants(";")
        return [text + ";"]

    def selection(self, walk):
        text = self.selected(walk)
        while walk.sees("&&", "||"):
            word = walk.next().text
            text += f" {word} {self.selected(walk)}"
        if walk.sees("with"):
            raise CannotSay("a design text has no `with` in selections of a cross")
        return text

    def selected(self, walk):
        if walk.takes("!"):
            return "!" + self.selected(walk)
        if walk.sees("("):
            inner = Tokens(walk.bracketed())
            text = self.selection(inner)
            if not inner.is_done():
                raise CannotSay(f"no selection goes on with {inner.now.text}")
            return f"({text})"
        if not walk.takes("binsof"):
            raise CannotSay(f"a design text selects by binsof, not by {walk.now.text}")
        text = f"binsof({self.bins_of(walk.bracketed())})"
        if walk.takes("intersect"):
            if not walk.sees("{"):
                raise CannotSay("a design text intersects with values in braces alone")
            text += " intersect { " + self.elements(walk.bracketed(), None) + " }"
        return text

    def bins_of(self, tokens):
        words = [it.text for it in tokens]
        if "[" in words:
            raise CannotSay(f"a design text has no binsof({spelled(tokens)}), which is one bin of many")
        if words[0] in self.labels or len(words) == 1:
            return "".join(words) if words[0] in self.labels else self.speaker.value(expression_of(tokens))
        text = self.speaker.value(expression_of(tokens[:-2])) if len(words) > 2 else words[0]
        if text in self.labels:
            return f"{text}.{words[-1]}"
        return self.speaker.value(expression_of(tokens))


def runs(numbers, kind):
    """Numbers in their order, those that follow one another as ranges."""
    found, start = [], 0
    for at in range(1, len(numbers) + 1):
        if at == len(numbers) or numbers[at] != numbers[at - 1] + 1:
            first, last = (literal_of(Value(it, max(kind.width, 32), True)) for it in (numbers[start], numbers[at - 1]))
            found.append(first if at - start == 1 else f"[{first}:{last}]")
            start = at
    return found


@dataclass
class Argument(Symbol):
    """An argument of the function `sample`, by its place."""

    def __init__(self, name, declared, scope, kind, place):
        super().__init__("argument", name, declared, scope, kind)
        self.place = place


@dataclass
class Handle(Symbol):
    """A formal of a covergroup that is a handle of an object or an interface."""

    def __init__(self, name, declared, scope, kind):
        super().__init__("handle", name, declared, scope, kind)
