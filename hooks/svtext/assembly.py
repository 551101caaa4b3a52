"""The covergroups of all scopes with their instances, put together to one design text."""

import re
from dataclasses import dataclass, field

from .book import Instance, label_of, name_of
from .expressions import Tokens, expression_of, spelled, split
from .groups import Writer
from .notes import SourceError
from .readings import CannotSay, Speaker
from .scopes import ArrayType, GroupType, NoType, NotConstant, Value, shape


@dataclass
class Site:
    """A `new` of a covergroup: where it stands, the name of what it makes, and how many it makes."""

    scope: object
    name: str
    count: int
    arguments: list
    token: object


@dataclass
class Kept:
    """Groups of several scopes that have one text."""

    texts: list = field(default_factory=list)
    name: str = ""


class Assembly:
    def __init__(self, design, book, notes):
        self.design, self.book, self.notes = design, book, notes
        self.sites = {}

    def run(self):
        found = self.texts()
        self.find_sites()
        for kept in found:
            first = kept.texts[0]
            kept.name = self.book.names.take(*group_names(first))
            if kept.name != first.declared.name:
                own = f"{first.declared.name} of {first.scope.name}"
                self.notes.changed(first.declared.token, f"the covergroup {own} is {kept.name} here")
        for kept in found:
            self.put(kept)
        return self.book

    def texts(self):
        """The groups by their declaration and text, in the order of the sources."""
        found = {}
        for scope in self.design.scopes:
            for symbol in scope.groups:
                try:
                    text = Writer(symbol, scope, self.book, self.notes).write()
                except (CannotSay, SourceError, NoType, NotConstant) as error:
                    why = getattr(error, "why", error)
                    self.notes.left_out(symbol.declared.token, f"the covergroup {symbol.name}: {why}")
                    continue
                for it in text.speaker.readings.values():
                    self.book.type_text(it.type, it.name + "_t")
                text.symbol = symbol
                found.setdefault((id(symbol.declared), text.body()), Kept()).texts.append(text)
        return list(found.values())

    # ---- where instances are made

    def find_sites(self):
        for scope in self.design.scopes:
            for new in scope.news:
                symbol, count = self.made_by(new, scope)
                if symbol is not None:
                    site = Site(scope, self.site_name(new, symbol, scope), count, new.arguments, new.token)
                    self.sites.setdefault(id(symbol), []).append(site)

    def made_by(self, new, scope):
        """The covergroup that a `new` makes, and how many."""
        expr = expression_of(new.target)
        while expr.kind == "select":
            expr = expr.parts[0]
        if expr.kind == "member" and expr.parts[0].text in ("this", "super") or expr.kind == "name":
            symbol = scope.lookup(expr.text)
            if symbol is not None and symbol.kind == "covergroup":
                return symbol, 1
        try:
            kind, count = shape(expr, scope), 1
        except (NoType, NotConstant):
            return None, 0
        while isinstance(kind, ArrayType):
            count *= abs(kind.span[0] - kind.span[1]) + 1 if kind.span else 0
            kind = kind.element
        if not isinstance(kind, GroupType):
            return None, 0
        if count == 0:
            self.notes.left_out(new.token, f"the instances {spelled(new.target)}, whose number isn't known")
            return None, 0
        return kind.symbol, count

    def site_name(self, new, symbol, scope):
        names = [it.text for it in without_indexes(new.target) if it.text not in ("this", "super") and it.kind == "name"]
        if names and names[-1] != symbol.name:
            return names[-1]
        owner = scope.above("class") or scope
        is_alone = len(owner.groups) == 1
        return name_of(owner.name) if is_alone else f"{name_of(owner.name)}_{symbol.name}"

    # ---- one group with its instances

    def put(self, kept):
        first = kept.texts[0]
        first.name = kept.name
        signals = [self.signals(text, len(kept.texts) > 1) for text in kept.texts]
        own = signals[0]
        for it in first.signals():
            if it.formal or len(kept.texts) > 1 or own[it.key].name != it.name:
                first.refs.append(it)
        if first.refs and not all(it.formal for it in first.refs):
            self.notes.changed(first.declared.token, f"{kept.name} has `ref` formals for the variables that it reads")
        self.book.groups.append(first)
        made = sum(self.instances(kept, text, own, first.refs) for text, own in zip(kept.texts, signals))
        if not made:
            self.notes.note(first.declared.token, f"{kept.name} has no instance")

    def signals(self, text, is_one_of_many):
        """The variables for what a scope's group reads, but for members of its formals."""
        found = {}
        for it in text.signals():
            if not it.formal:
                is_shared = it.home not in (None, text.scope)
                wanted = f"{label_of(text.scope)}_{it.name}" if is_one_of_many and not is_shared else it.name
                found[it.key] = self.book.signal(it.home or text.scope, it.key, it.type, it.path, wanted)
                if not it.path and text.scope.path and text.scope.above("class") is None:
                    self.notes.note(it.token, f"no dump has {it.name}, which is {it.source}; a bench has to tell it")
        return found

    def instances(self, kept, text, signals, refs):
        sites = self.sites.get(id(text.symbol), [])
        if not sites:
            if any(it.kind == "handle" or it.text and not it.default for it in text.formals):
                self.notes.left_out(text.declared.token, f"{kept.name} has formals, and no `new` of it was seen")
                return 0
            self.notes.note(text.declared.token, f"no `new` of {kept.name} was seen; it has one instance")
            sites = [Site(text.scope, f"{kept.name}_1", 1, [], text.declared.token)]
        made = 0
        for site in sites:
            for place in range(site.count):
                made += self.instance(kept, text, dict(signals), refs, site, place)
        return made

    def instance(self, kept, text, signals, refs, site, place):
        try:
            given = Given(site, text, self.book, self.notes)
            for it in text.signals():
                if it.formal:
                    signals[it.key] = given.member(it)
            words = [signals[it.key].name for it in refs] + given.words()
        except (CannotSay, SourceError, NoType, NotConstant) as error:
            self.notes.left_out(site.token, f"the instance {site.name} of {kept.name}: {getattr(error, 'why', error)}")
            return 0
        name = site.name if site.count == 1 else f"{site.name}_{place}"
        if len(kept.texts) > 1:
            name = f"{label_of(text.scope)}_{name}"
        name = self.book.names.take(name, f"{label_of(site.scope)}_{name}")
        self.book.instances.append(Instance(name, kept.texts[0], words, signals, text))
        return 1


def group_names(text):
    """Names for a group, in the order in which they are wanted: its own, that with the parameters of its module's
    instance, and that with the place of this instance."""
    own, scope = text.declared.name, text.scope
    found = [own]
    values = [(name, scope.symbols[name].known) for name in scope.overridden if name in scope.symbols]
    if values and all(isinstance(it, Value) for _, it in values):
        found.append(name_of(own + "_" + "_".join(f"{name}{it.number}" for name, it in values)))
    return [*found, f"{label_of(scope)}_{own}"]


def without_indexes(tokens):
    found, depth = [], 0
    for it in tokens:
        depth -= it.text == "]"
        if depth == 0 and it.text not in "[]":
            found.append(it)
        depth += it.text == "["
    return found


class Given:
    """The arguments of one `new`."""

    def __init__(self, site, text, book, notes):
        self.site, self.text, self.book = site, text, book
        self.speaker = Speaker(site.scope, book, notes)
        self.actual = {}
        for place, piece in enumerate(split(site.arguments)):
            walk = Tokens(piece)
            if walk.takes("."):
                name = walk.name().text
                self.actual[name] = walk.bracketed()
            elif piece and place < len(text.formals):
                self.actual[text.formals[place].name] = piece

    def member(self, reading):
        """The variable for a member of a formal's handle."""
        tokens = self.actual.get(reading.formal)
        if not tokens:
            raise CannotSay(f"there is no argument {reading.formal}")
        given = spelled(tokens)
        source = re.sub(rf"\b{re.escape(reading.formal)}\b", lambda _: given, reading.key, count=1)
        return self.variable(source, reading.type)

    def variable(self, source, kind, expr=None):
        place = self.speaker.place(expr) if expr else None
        return self.book.signal(self.site.scope, source, kind, place.text() if place else "", name_of(source))

    def words(self):
        """Arguments as text, to the last one that isn't left to its default."""
        found, last = [], 0
        for it in self.text.formals:
            if not it.text:
                continue
            tokens = self.actual.get(it.name)
            if tokens:
                found.append(self.word(it, tokens))
                last = len(found)
            elif it.default:
                found.append(it.text.split(" = ", 1)[1])
            else:
                raise CannotSay(f"the formal {it.name} has no argument")
        return found[:last]

    def word(self, formal, tokens):
        expr = expression_of(tokens)
        if formal.kind == "ref":
            return self.variable(expr.source, formal.type, expr).name
        return self.speaker.constant(expr)
