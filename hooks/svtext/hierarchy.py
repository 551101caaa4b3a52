"""The scopes of a design: packages, the instances of its modules with their parameters (IEEE 1800-2017, clause 23),
its classes, and where their covergroups are made and sampled."""

from dataclasses import dataclass, field

from . import declarations as d
from .expressions import Tokens, expression_of, split
from .notes import SourceError
from .scopes import NoType, NotConstant, Scope, Value, number_of, span_of, type_of, typedef

MOST_ROUNDS = 1024


@dataclass
class Override:
    """A parameter of an instance: an expression in the scope that makes the instance."""

    tokens: list
    scope: Scope


@dataclass
class Design:
    """All that was read."""

    units: list
    notes: object
    overrides: dict = field(default_factory=dict)
    top: str = ""
    modules: dict = field(default_factory=dict)
    packages: dict = field(default_factory=dict)
    enums: dict = field(default_factory=dict)
    scopes: list = field(default_factory=list)
    interfaces: dict = field(default_factory=dict)
    constant_names: set = field(default_factory=set)

    def __post_init__(self):
        self.unit = Scope("unit", "$unit", None, self)
        self.package_units = {it.name: it for it in self.units if isinstance(it, d.Unit) and it.kind == "package"}
        self.modules = {
            it.name: it for it in self.units if isinstance(it, d.Unit) and it.kind in ("module", "interface", "program")
        }
        rest = [it for it in self.units if not (isinstance(it, d.Unit) and it.kind != "class")]
        self.scopes.append(self.unit)
        self.fill(self.unit, rest)
        for name in self.package_units:
            self.package(name)
        for unit in self.tops():
            self.instance(unit, unit.name, unit.name, {})

    def package(self, name):
        if name not in self.packages and name in self.package_units:
            scope = Scope("package", name, self.unit, self, name)
            self.packages[name] = scope
            self.scopes.append(scope)
            self.fill(scope, self.package_units[name].items)
        return self.packages.get(name)

    def tops(self):
        if self.top:
            if self.top not in self.modules:
                raise SourceError(self.top, "there is no module of this name")
            return [self.modules[self.top]]
        made = {it.module for unit in self.modules.values() for it in instantiations(unit.items)}
        return [it for it in self.modules.values() if it.name not in made]

    def interface(self, unit):
        """The scope of an interface by itself, for what stands behind a handle or a port."""
        if unit.name not in self.interfaces:
            scope = Scope(unit.kind, unit.name, self.unit, self, unit.name)
            self.interfaces[unit.name] = scope
            self.fill_unit(scope, unit, {})
        return self.interfaces[unit.name]

    def instance(self, unit, name, path, overrides):
        scope = Scope(unit.kind, name, self.unit, self, path)
        scope.unit_name = unit.name
        self.scopes.append(scope)
        if path == unit.name:
            overrides = {key: Override(tokens, self.unit) for key, tokens in self.overrides.items()}
        self.fill_unit(scope, unit, overrides)
        return scope

    def fill_unit(self, scope, unit, overrides):
        scope.overridden = tuple(overrides)
        for it in unit.parameters:
            self.parameter(scope, it, overrides)
        for it in unit.ports:
            scope.put("variable", it.name, it)
        self.fill(scope, unit.items, overrides)

    # ---- items

    def fill(self, scope, items, overrides=None):
        """Gives the scope its names first, and then what it makes."""
        later = []
        for it in items:
            if isinstance(it, d.Parameter):
                self.parameter(scope, it, overrides or {})
            elif isinstance(it, d.Import):
                scope.imports.append((it.package, it.name))
            elif isinstance(it, d.Typedef):
                self.typedef(scope, it)
            elif isinstance(it, d.Variable):
                self.variable(scope, it)
            elif isinstance(it, d.Covergroup):
                scope.groups.append(scope.put("covergroup", it.name, it))
            elif isinstance(it, d.Clocking):
                scope.put("clocking", it.name, it)
            elif isinstance(it, d.Function):
                scope.put("function", it.name, it)
            elif isinstance(it, d.Unit) and it.kind == "class":
                self.class_scope(scope, it)
            else:
                later.append(it)
        for it in later:
            self.make(scope, it)

    def parameter(self, scope, declared, overrides):
        own = overrides.get(declared.name)
        if declared.is_type:
            tokens, where = (own.tokens, own.scope) if own else (declared.value, scope)
            if tokens:
                syntax = d.Parser(list(tokens), self.notes).type()
                symbol = scope.put("type", declared.name, d.Typedef(declared.name, syntax, [], declared.token))
                symbol.scope = where
            return
        symbol = scope.put("parameter", declared.name, declared)
        if own and not declared.is_local:
            symbol.declared = d.Parameter(declared.name, declared.type, own.tokens, declared.token)
            symbol.scope = own.scope

    def typedef(self, scope, declared):
        symbol = scope.put("type", declared.name, declared)
        if declared.type.word == "enum":
            self.constants(scope, declared.type, lambda: typedef(symbol))

    def variable(self, scope, declared):
        scope.put("variable", declared.name, declared)
        if declared.type.word == "enum":
            self.constants(scope, declared.type, lambda: type_of(declared.type, scope))

    def constants(self, scope, syntax, kind):
        try:
            found = kind()
            for name, _ in found.enum.members if found.enum else ():
                scope.put("constant", name, syntax, found)
                self.constant_names.add(name)
        except (NoType, NotConstant, SourceError) as error:
            self.notes.note(syntax.token, f"the enumeration isn't known: {error}")

    def class_scope(self, parent, unit):
        scope = Scope("class", unit.name, parent, self, parent.path, base=list(unit.base) or None)
        self.scopes.append(scope)
        parent.put("class", unit.name, unit, scope)
        for it in unit.parameters:
            self.parameter(scope, it, {})
        self.fill(scope, unit.items)

    def make(self, scope, it):
        if isinstance(it, d.New):
            scope.news.append(it)
        elif isinstance(it, d.Sample):
            scope.samples.append(it)
        elif isinstance(it, d.Outside):
            symbol = scope.lookup(it.owner)
            self.fill(symbol.known if symbol and symbol.kind == "class" else scope, it.items)
        elif isinstance(it, d.Instantiation):
            self.instantiate(scope, it)
        elif isinstance(it, d.GenerateIf):
            self.generate_if(scope, it)
        elif isinstance(it, d.GenerateFor):
            self.generate_for(scope, it)
        elif isinstance(it, d.Block):
            self.block(scope, it.label, it.items)

    def instantiate(self, scope, it):
        unit = self.modules.get(it.module)
        if unit is None:
            return
        path = f"{scope.path}.{it.name}"
        if path.count(".") > 64:
            raise SourceError(it.token.place, "modules stand in one another without end")
        overrides = self.override(scope, it, unit)
        try:
            spans = [span_of(dim, scope) for dim in it.dims]
        except NoType:
            self.notes.left_out(it.token, f"the instances {it.name}, whose number isn't known")
            return
        places = [""]
        for left, right in spans:
            low, high = sorted((left, right))
            places = [f"{place}[{k}]" for place in places for k in range(low, high + 1)]
        for place in places:
            made = self.instance(unit, it.name + place, path + place, overrides)
            scope.put("instance", it.name + place, it, made)

    def override(self, scope, it, unit):
        names = [own.name for own in unit.parameters if not own.is_local]
        found = {}
        for place, piece in enumerate(split(it.parameters)):
            walk = Tokens(piece)
            if walk.takes("."):
                name = walk.name().text
                found[name] = Override(walk.bracketed(), scope)
            elif place < len(names):
                found[names[place]] = Override(piece, scope)
        return {name: own for name, own in found.items() if own.tokens}

    def generate_if(self, scope, it):
        try:
            holds = number_of(expression_of(it.condition), scope) != 0
        except (NotConstant, NoType, SourceError) as error:
            self.notes.left_out(it.token, f"a generate if: {error}")
            return
        self.fill(scope, it.then if holds else it.other)

    def generate_for(self, scope, it):
        try:
            value = number_of(expression_of(it.first), scope)
            for _ in range(MOST_ROUNDS):
                inner = Scope("block", f"{it.label}[{value}]", scope, self, f"{scope.path}.{it.label}[{value}]")
                inner.put("value", it.variable, it, Value(value))
                if not number_of(expression_of(it.condition), inner):
                    return
                self.scopes.append(inner)
                self.fill(inner, it.items)
                value = self.stepped(it, inner, value)
        except (NotConstant, NoType, SourceError) as error:
            self.notes.left_out(it.token, f"a generate for: {error}")
            return
        self.notes.left_out(it.token, f"a generate for of more than {MOST_ROUNDS} rounds")

    def stepped(self, it, scope, value):
        words = [own.text for own in it.step]
        if "++" in words or "--" in words:
            return value + (1 if "++" in words else -1)
        if words[1] == "=":
            return number_of(expression_of(it.step[2:]), scope)
        change = number_of(expression_of(it.step[2:]), scope)
        table = {"+=": value + change, "-=": value - change, "*=": value * change}
        if words[1] not in table:
            raise NotConstant(f"the step {' '.join(words)}")
        return table[words[1]]

    def block(self, scope, label, items):
        if not label:
            self.fill(scope, items)
            return
        inner = Scope("block", label, scope, self, f"{scope.path}.{label}")
        self.scopes.append(inner)
        self.fill(inner, items)


def instantiations(items):
    for it in items:
        if isinstance(it, d.Instantiation):
            yield it
        elif isinstance(it, (d.GenerateFor, d.Block)):
            yield from instantiations(it.items)
        elif isinstance(it, d.GenerateIf):
            yield from instantiations(it.then + it.other)


