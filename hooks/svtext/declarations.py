"""Declarations of SystemVerilog sources, as far as covergroups need them: what stands in packages, modules, interfaces,
programs and classes. What isn't needed is passed over to its end."""

from dataclasses import dataclass, field

from .expressions import TYPE_WORDS, Tokens, split
from .notes import SourceError
from .source import NAME, SYSTEM, Token

VECTORS, FIXED = {"bit", "logic", "reg"}, {"byte": 8, "shortint": 16, "int": 32, "longint": 64, "integer": 32, "time": 64}
NETS = set("wire tri wand wor uwire supply0 supply1 var".split())
QUALIFIERS = set("rand randc local protected static automatic const var extern pure virtual".split())
ENDS = {
    "function": "endfunction", "task": "endtask", "property": "endproperty", "sequence": "endsequence",
    "specify": "endspecify", "primitive": "endprimitive", "checker": "endchecker", "config": "endconfig",
    "table": "endtable", "randsequence": "endsequence",
}  # fmt: skip
PROCESSES = {"initial", "final", "always", "always_ff", "always_comb", "always_latch"}
SIMPLE = set("assign alias bind defparam export let timeunit timeprecision genvar modport import nettype".split())


@dataclass
class TypeSyntax:
    """A type as it is written: `word` is a keyword, `name`, `enum`, `struct`, `union`, `virtual` or empty."""

    word: str
    token: Token
    path: list = field(default_factory=list)
    sign: str = ""
    dims: list = field(default_factory=list)
    base: object = None
    members: list = field(default_factory=list)
    is_packed: bool = False


@dataclass
class Variable:
    name: str
    type: TypeSyntax
    dims: list
    value: list
    token: Token
    direction: str = ""


@dataclass
class Parameter:
    name: str
    type: TypeSyntax
    value: list
    token: Token
    is_type: bool = False
    is_local: bool = False


@dataclass
class Typedef:
    name: str
    type: TypeSyntax
    dims: list
    token: Token


@dataclass
class EnumMember:
    name: str
    span: list
    value: list
    token: Token


@dataclass
class Covergroup:
    name: str
    formals: list
    event: list
    sample: object
    body: list
    token: Token


@dataclass
class Clocking:
    name: str
    event: list
    signals: list
    token: Token


@dataclass
class Function:
    name: str
    type: TypeSyntax
    formals: list
    token: Token


@dataclass
class Outside:
    """What stands in a method of a class whose body stands outside of it."""

    owner: str
    items: list
    token: Token


@dataclass
class New:
    """`target = new(arguments)` as a statement or a variable's first value."""

    target: list
    arguments: list
    token: Token


@dataclass
class Sample:
    """A call `target.sample(arguments)`."""

    target: list
    arguments: list
    token: Token


@dataclass
class Import:
    package: str
    name: str
    token: Token


@dataclass
class Instantiation:
    module: str
    parameters: list
    name: str
    dims: list
    token: Token


@dataclass
class GenerateIf:
    condition: list
    then: list
    other: list
    token: Token


@dataclass
class GenerateFor:
    variable: str
    first: list
    condition: list
    step: list
    items: list
    label: str
    token: Token


@dataclass
class Block:
    label: str
    items: list
    token: Token


@dataclass
class Unit:
    """A package, module, interface, program or class."""

    kind: str
    name: str
    parameters: list
    ports: list
    items: list
    base: list
    token: Token


class Parser:
    """Declarations of one compilation unit."""

    def __init__(self, tokens, notes):
        self.walk = Tokens(tokens)
        self.notes = notes

    def source(self):
        return self.items(())

    def items(self, ends):
        found = []
        while not self.walk.is_done() and not self.walk.sees(*ends):
            start = self.walk.at
            try:
                found.extend(self.item())
            except SourceError as error:
                self.notes.note(self.walk.now, f"passed over from {error.place}: {error.why}")
                self.pass_statement()
            if self.walk.at == start:
                self.walk.next()
        return found

    # ---- one item

    def item(self):
        walk = self.walk
        self.attributes()
        word = walk.now.text if walk.now.kind in (NAME, SYSTEM) else ""
        if word in ("module", "macromodule", "interface", "program", "package", "class") or self.is_class():
            return self.unit()
        if word == "covergroup":
            return [self.covergroup()]
        if word == "typedef":
            return self.typedef()
        if word in ("parameter", "localparam"):
            return self.parameters_statement()
        if word == "import" and walk.ahead().kind == NAME:
            return self.imports()
        if word in ("clocking", "default", "global"):
            return self.clocking()
        if word in ("if", "for", "case", "begin", "generate"):
            return self.generate(word)
        if word in PROCESSES:
            walk.next()
            return self.statement()
        if word in ENDS or word in ("extern", "pure") or self.is_method():
            return self.method()
        if word in SIMPLE or word == "constraint":
            self.pass_statement()
            return []
        if word in ("assert", "assume", "cover", "restrict", "expect"):
            return self.statement()
        if walk.now.kind == NAME:
            return self.declaration()
        walk.next()
        return []

    def attributes(self):
        walk = self.walk
        while walk.sees("(") and walk.ahead().text == "*" and walk.ahead().joined and walk.ahead(2).text != ")":
            walk.next()
            while not walk.is_done() and not (walk.next().text == "*" and walk.sees(")")):
                pass
            walk.next()

    def is_class(self):
        walk = self.walk
        return walk.sees("virtual") and walk.ahead().text == "class" or (
            walk.sees("interface") and walk.ahead().text == "class"
        )

    def is_method(self):
        steps = 0
        while self.walk.ahead(steps).text in QUALIFIERS:
            steps += 1
        return self.walk.ahead(steps).text in ("function", "task")

    def unit(self):
        walk = self.walk
        walk.takes("virtual")
        if walk.sees("interface") and walk.ahead().text == "class":
            walk.next()
        kind = walk.next()
        walk.takes("automatic", "static")
        name = walk.name()
        items, parameters, ports, base = [], [], [], []
        while walk.sees("import"):
            items.extend(self.imports())
        if walk.takes("#"):
            parameters = self.parameter_list(walk.bracketed())
        if walk.sees("("):
            ports = self.port_list(walk.bracketed())
        if walk.takes("extends"):
            base = walk.until("implements", ";")
        walk.until(";")
        walk.wants(";")
        ends = ("endmodule", "endinterface", "endprogram", "endpackage", "endclass")
        items.extend(self.items(ends))
        walk.next()
        self.label()
        return [Unit("module" if kind.text == "macromodule" else kind.text, name.text, parameters, ports, items, base, name)]

    def label(self):
        if self.walk.takes(":"):
            return self.walk.next().text
        return ""

    def imports(self):
        walk, found = self.walk, []
        walk.wants("import")
        while True:
            package = walk.name()
            walk.wants("::")
            found.append(Import(package.text, walk.next().text, package))
            if not walk.takes(","):
                break
        walk.wants(";")
        return found

    # ---- types and variables

    def type(self):
        """The type that begins here; one without a word is implicit."""
        walk = self.walk
        token = walk.now
        found = TypeSyntax("", token)
        if walk.takes("enum"):
            return self.enumeration(token)
        if walk.sees("struct", "union"):
            return self.structure()
        if walk.takes("virtual"):
            walk.takes("interface")
            found.word, found.path = "virtual", self.path()
            walk.takes(".") and walk.name()
            return found
        if walk.sees("signed", "unsigned", "["):
            found.word = ""
        elif token.text in TYPE_WORDS:
            found.word = walk.next().text
        else:
            found.word, found.path = "name", self.path()
        sign = walk.takes("signed", "unsigned")
        found.sign = sign.text if sign else ""
        found.dims = self.dims()
        return found

    def path(self):
        walk = self.walk
        names = [walk.name().text]
        while True:
            if walk.sees("#") and walk.ahead().text == "(":
                walk.next()
                walk.bracketed()
            if not walk.takes("::"):
                return names
            names.append(walk.name().text)

    def dims(self):
        found = []
        while self.walk.sees("["):
            found.append(self.walk.bracketed())
        return found

    def enumeration(self, token):
        walk = self.walk
        base = None if walk.sees("{") else self.type()
        members = []
        for piece in split(walk.bracketed()):
            inner = Tokens(piece)
            if inner.is_done():
                continue
            name = inner.name()
            span = inner.bracketed() if inner.sees("[") else []
            inner.takes("=")
            members.append(EnumMember(name.text, span, inner.tokens[inner.at :], name))
        return TypeSyntax("enum", token, base=base, members=members, dims=self.dims())

    def structure(self):
        walk = self.walk
        word = walk.next()
        walk.takes("tagged")
        found = TypeSyntax(word.text, word, is_packed=bool(walk.takes("packed")))
        sign = walk.takes("signed", "unsigned")
        found.sign = sign.text if sign else ""
        inner = Parser(walk.bracketed(), self.notes)
        while not inner.walk.is_done():
            found.members.extend(it for it in inner.declaration() if isinstance(it, Variable))
        found.dims = self.dims()
        return found

    def typedef(self):
        walk = self.walk
        walk.wants("typedef")
        if walk.sees("class", "interface") or walk.ahead().text == ";":
            self.pass_statement()
            return []
        found = self.type()
        name = walk.name()
        dims = self.dims()
        walk.wants(";")
        return [Typedef(name.text, found, dims, name)]

    def declaration(self):
        """Variables, nets, ports, or instances of modules."""
        walk = self.walk
        direction, start = "", walk.at
        while walk.now.text in QUALIFIERS or walk.now.text in NETS or walk.sees("input", "output", "inout", "ref"):
            if walk.sees("virtual"):
                break
            token = walk.next()
            direction = token.text if token.text not in QUALIFIERS else direction
        if walk.sees("enum", "struct", "union", "virtual", "signed", "unsigned", "[") or walk.now.text in TYPE_WORDS:
            found = self.variables(self.type(), direction)
            is_const = any(it.text == "const" for it in walk.tokens[start : start + 4])
            return [constant_of(it) for it in found] if is_const else found
        if walk.now.kind == NAME and walk.ahead().text in (",", ";", "=") and direction:
            return self.variables(TypeSyntax("", walk.now), direction)
        return self.named(direction)

    def named(self, direction):
        """What begins with a name: variables of its type, or instances of its module."""
        walk = self.walk
        token = walk.now
        names = [walk.name().text]
        parameters = []
        if walk.takes(":"):  # a label of a statement
            return []
        while walk.sees("::", "#"):
            if walk.takes("#"):
                parameters = walk.bracketed() if walk.sees("(") else [walk.next()]
            else:
                walk.next()
                names.append(walk.name().text)
        dims = self.dims()
        if walk.now.kind != NAME:
            self.pass_statement()
            return []
        if walk.sees("."):
            self.pass_statement()
            return []
        steps = 1
        while walk.ahead(steps).text == "[":
            inner = Tokens(walk.tokens)
            inner.at = walk.at + steps
            inner.bracketed()
            steps = inner.at - walk.at
        if walk.ahead(steps).text == "(":
            return self.instances(names[-1], parameters)
        return self.variables(TypeSyntax("name", token, path=names, dims=dims), direction)

    def variables(self, kind, direction):
        walk, found = self.walk, []
        while True:
            name = walk.name()
            dims = self.dims()
            value = walk.until(",", ";") if walk.takes("=") else []
            found.append(Variable(name.text, kind, dims, value, name, direction))
            if value and value[0].text == "new":
                found.append(New([name], arguments_of(value), name))
            if not walk.takes(","):
                break
        if not walk.takes(";"):
            self.pass_statement()
        return found

    def instances(self, module, parameters):
        walk, found = self.walk, []
        while True:
            name = walk.name()
            dims = self.dims()
            if walk.sees("("):
                walk.bracketed()
            found.append(Instantiation(module, parameters, name.text, dims, name))
            if not walk.takes(","):
                break
        walk.takes(";")
        return found

    # ---- parameters and ports

    def parameters_statement(self):
        walk = self.walk
        is_local = walk.next().text == "localparam"
        tokens = walk.until(";")
        walk.wants(";")
        return self.parameter_list(tokens, is_local)

    def parameter_list(self, tokens, is_local=False):
        found, kind, is_type = [], TypeSyntax("", tokens[0] if tokens else self.walk.now), False
        for piece in split(tokens):
            inner = Parser(piece, self.notes)
            walk = inner.walk
            word = walk.takes("parameter", "localparam")
            if word:
                is_local, kind, is_type = word.text == "localparam", TypeSyntax("", word), False
            if walk.takes("type"):
                is_type = True
            elif not (walk.now.kind == NAME and walk.ahead().text in ("=", "") or is_type) or walk.now.text in TYPE_WORDS:
                if not (walk.now.kind == NAME and walk.ahead().text == "[" and walk.now.text not in TYPE_WORDS):
                    kind = inner.type()
            name = walk.name()
            dims = inner.dims()
            own = TypeSyntax("array", name, base=kind) if dims else kind
            walk.takes("=")
            found.append(Parameter(name.text, own, walk.tokens[walk.at :], name, is_type, is_local))
        return found

    def port_list(self, tokens):
        """The ports of a header with types; of a list of names alone, none."""
        found, kind, direction = [], None, ""
        for piece in split(tokens):
            inner = Parser(piece, self.notes)
            inner.attributes()
            walk = inner.walk
            if walk.is_done() or walk.sees("."):
                continue
            word = walk.takes("input", "output", "inout", "ref")
            direction = word.text if word else direction
            is_named = bool(word)
            while walk.takes(*NETS):
                is_named = True
            if walk.now.kind == NAME and walk.ahead().text in ("", "=", "[") and walk.now.text not in TYPE_WORDS:
                if is_named:
                    kind = TypeSyntax("", walk.now)
                if kind is None:
                    continue
            elif walk.now.text == "interface":
                continue
            else:
                kind = inner.type()
                walk.takes(".") and walk.name()
            if walk.now.kind != NAME:
                continue
            name = walk.name()
            found.append(Variable(name.text, kind, inner.dims(), [], name, direction))
        return found

    def formals(self, tokens):
        """The formals of a covergroup or of its function `sample`: one without a type has that of the one before it."""
        found, kind, direction = [], None, ""
        for piece in split(tokens):
            inner = Parser(piece, self.notes)
            walk = inner.walk
            walk.takes("const")
            word = walk.takes("input", "output", "inout", "ref")
            walk.takes("var")
            if word or kind is None:
                direction, kind = word.text if word else "", TypeSyntax("", walk.now)
            if not (walk.now.kind == NAME and walk.ahead().text in ("", "=", "[") and walk.now.text not in TYPE_WORDS):
                kind = inner.type()
            name = walk.name()
            dims = inner.dims()
            walk.takes("=")
            found.append(Variable(name.text, kind, dims, walk.tokens[walk.at :], name, direction))
        return found

    # ---- covergroups and clocking blocks

    def covergroup(self):
        walk = self.walk
        walk.wants("covergroup")
        if walk.takes("extends"):
            name = walk.name()
            self.notes.left_out(name, f"the covergroup that extends {name.text}")
            self.pass_to("endgroup")
            return Import("", "", name)
        name = walk.name()
        formals = walk.bracketed() if walk.sees("(") else []
        event, sample = [], None
        if walk.takes("with"):
            walk.wants("function")
            walk.wants("sample")
            sample = walk.bracketed() if walk.sees("(") else []
        elif walk.sees("@", "@@"):
            event = walk.until(";")
        walk.wants(";")
        start = walk.at
        while not walk.is_done() and not walk.sees("endgroup"):
            walk.next()
        body = walk.tokens[start : walk.at]
        walk.wants("endgroup")
        self.label()
        return Covergroup(name.text, formals, event, sample, body, name)

    def clocking(self):
        walk = self.walk
        walk.takes("default", "global")
        if not walk.takes("clocking"):
            self.pass_statement()
            return []
        name = walk.name() if walk.now.kind == NAME else walk.now
        if walk.takes(";"):
            return []
        event = walk.until(";")
        walk.wants(";")
        signals = []
        while not walk.is_done() and not walk.sees("endclocking"):
            if walk.takes("input", "output", "inout"):
                signals.extend(clocked(walk.until(";")))
            walk.next()
        walk.next()
        self.label()
        return [Clocking(name.text, event, signals, name)]

    # ---- generate constructs, functions and statements

    def generate(self, word):
        walk = self.walk
        token = walk.next()
        if word == "generate":
            found = self.items(("endgenerate",))
            walk.next()
            return found
        if word == "begin":
            label = self.label()
            found = self.items(("end",))
            walk.next()
            self.label()
            return [Block(label, found, token)]
        if word == "if":
            condition = walk.bracketed()
            then = self.item()
            other = self.item() if walk.takes("else") else []
            return [GenerateIf(condition, then, other, token)]
        if word == "for":
            return [self.generate_for(token)]
        self.notes.note(token, "a generate case was passed over")
        self.pass_to("endcase")
        return []

    def generate_for(self, token):
        head = self.walk.bracketed()
        first, condition, step = split(head, ";")
        first = first[1:] if first[0].text == "genvar" else first
        items = self.item()
        label = items[0].label if items and isinstance(items[0], Block) else ""
        inner = items[0].items if label or items and isinstance(items[0], Block) else items
        return GenerateFor(first[0].text, first[2:], condition, step, inner, label, token)

    def method(self):
        """A function or a task, with what it makes and samples; other constructs with an end word are passed over."""
        walk = self.walk
        is_declared = False
        while walk.now.text in QUALIFIERS:
            is_declared |= walk.next().text in ("extern", "pure")
        word = walk.next()
        if word.text not in ENDS:
            self.pass_statement()
            return []
        found, owner = [], ""
        if word.text in ("function", "task"):
            function, owner = self.head(word)
            found.append(function)
        if is_declared:
            self.pass_statement()
            return found
        found.extend(self.body(ENDS[word.text]))
        self.label()
        return [Outside(owner, found, word)] if owner else found

    def head(self, token):
        """The head of a function or a task, and the class before its name, where one stands there."""
        walk = self.walk
        walk.takes("automatic", "static")
        before = walk.until(";", "(")
        inner = Parser(before, self.notes)
        names = [it.text for it in before if it.kind == NAME]
        owner = before[-3].text if len(before) > 2 and before[-2].text == "::" else ""
        kind = TypeSyntax("", token)
        try:
            first = inner.type() if token.text == "function" and len(names) > 1 + bool(owner) else kind
            kind = first
        except SourceError:
            pass
        formals = walk.bracketed() if walk.sees("(") else []
        return Function(names[-1] if names else "", kind, formals, token), owner

    def body(self, end):
        found = []
        while not self.walk.is_done() and not self.walk.sees(end):
            found.extend(self.step())
        self.walk.next()
        return found

    def step(self):
        """Goes one token on, and says what stands there where it is a `new` or a call of `sample`."""
        walk = self.walk
        if walk.sees("new") and walk.at > 0 and walk.tokens[walk.at - 1].text in ("=", "<="):
            token = walk.next()
            target = target_before(walk.tokens, walk.at - 2)
            words = walk.bracketed() if walk.sees("(") else []
            return [New(target, words, token)] if target else []
        if walk.sees("sample") and walk.at > 0 and walk.tokens[walk.at - 1].text == "." and walk.ahead().text == "(":
            token = walk.next()
            target = target_before(walk.tokens, walk.at - 2)
            return [Sample(target, walk.bracketed(), token)] if target else []
        walk.next()
        return []

    def statement(self):
        """One statement, with what it makes and samples."""
        walk, found = self.walk, []
        word = walk.now.text
        nests = {"begin": "end", "fork": "join", "case": "endcase", "casex": "endcase", "casez": "endcase"}
        if word in nests:
            return self.nested()
        if word in ("if", "while", "repeat", "foreach", "for", "wait", "assert", "assume", "cover", "expect", "restrict"):
            walk.next()
            walk.takes("property", "sequence", "final", "0", "fork")
            if walk.takes("#"):
                walk.next()
            if walk.sees("("):
                walk.bracketed()
            if not walk.sees("else"):
                found += self.statement()
            if walk.takes("else"):
                found += self.statement()
            return found
        if word == "forever":
            walk.next()
            return self.statement()
        if walk.sees("@", "#", "@@", "##"):
            walk.next()
            walk.bracketed() if walk.sees("(") else walk.next()
            return self.statement()
        if walk.ahead().text == ":" and walk.now.kind == NAME:
            walk.next()
            walk.next()
            return self.statement()
        while not walk.is_done() and not walk.sees(";"):
            found += self.step()
        walk.next()
        return found

    def nested(self):
        walk, found, depth = self.walk, [], 0
        while not walk.is_done():
            if walk.sees("begin", "fork", "case", "casex", "casez") and not self.is_unforked():
                depth += 1
            if walk.sees("end", "join", "join_any", "join_none", "endcase"):
                depth -= 1
                if depth == 0:
                    break
            found += self.step()
        walk.next()
        self.label()
        return found

    def is_unforked(self):
        return self.walk.sees("fork") and self.walk.at > 0 and self.walk.tokens[self.walk.at - 1].text in ("disable", "wait")

    def pass_statement(self):
        """To the end of what isn't needed: behind its semicolon, or behind its braces."""
        walk = self.walk
        while not walk.is_done():
            if walk.takes(";"):
                return
            if walk.sees("{"):
                walk.bracketed()
                if not walk.sees(";", ",", "=", ")", "}", "?", ":", "+", "-", "|", "&", "^", "."):
                    return
            elif walk.sees("(", "["):
                walk.bracketed()
            elif walk.now.text in ("endmodule", "endclass", "endpackage", "endinterface", "endprogram"):
                return
            else:
                walk.next()

    def pass_to(self, word):
        while not self.walk.is_done() and self.walk.next().text != word:
            pass
        self.label()


def constant_of(it):
    """A `const` variable with a value is as good as a local parameter."""
    if isinstance(it, Variable) and it.value and it.value[0].text != "new":
        kind = TypeSyntax("array", it.token, base=it.type) if it.dims else it.type
        return Parameter(it.name, kind, it.value, it.token, is_local=True)
    return it


def arguments_of(value):
    """The arguments of `new (..)`."""
    return Tokens(value[1:]).bracketed() if len(value) > 1 and value[1].text == "(" else []


def target_before(tokens, at):
    """The path, with its indexes, that ends at the token `at` or at the operator there."""
    if at >= 0 and tokens[at].text in ("=", "<=", "."):
        at -= 1
    last = at
    while at >= 0:
        if tokens[at].text == "]":
            depth = 0
            while at >= 0:
                depth += {"]": 1, "[": -1}.get(tokens[at].text, 0)
                at -= 1
                if depth == 0:
                    break
            continue
        if tokens[at].kind != NAME:
            return []
        if at < 1 or tokens[at - 1].text != ".":
            return tokens[at : last + 1]
        at -= 2
    return []


def clocked(tokens):
    """The signals of one line of a clocking block: pairs of the name there and the tokens of what it stands for."""
    found = []
    walk = Tokens(tokens)
    while walk.sees("#", "posedge", "negedge", "edge", "input", "output"):
        if walk.next().text == "#":
            walk.bracketed() if walk.sees("(") else walk.next()
    for piece in split(walk.tokens[walk.at :]):
        if piece and piece[0].kind == NAME:
            found.append((piece[0].text, piece[2:] if len(piece) > 2 else piece[:1]))
    return found
