"""Reads files of Austral into trees, for tools that show something of a program. Whether a program is accepted the
compiler alone says: what is read here is only what explains it.

A file is read byte by byte, as the compiler counts: its text is decoded as Latin-1, so that a column is an index."""
import dataclasses
import functools
import re

KEYWORDS = frozenset("""module body is end import as pragma constant type record union case when of do function generic
    typeclass instance method let var if then else while for from to borrow in return skip nil true false and or not
    Free Linear Type Region""".split())
OPERATORS = frozenset("+ - * / = /= < <= > >= and or".split())
PIECE = re.compile(
    r'(?P<blank>[ \t\r\n]+|--[^\n]*|"""[\s\S]*?""")'
    r'|(?P<text>"(?:[^"\\\x00-\x1f]|\\[nrt"\\])*")'
    r"|(?P<number>[0-9]+)|(?P<name>[A-Za-z][A-Za-z0-9_]*)"
    r"|(?P<sign>:=|->|=>|&!|&~|/=|<=|>=|[()\[\]{},;:.&!+\-*/=<>])"
)


class Unreadable(Exception):
    """A file has no tree."""


@dataclasses.dataclass(frozen=True)
class Token:
    kind: str
    text: str
    at: tuple

    @property
    def end(self):
        return self.at[0], self.at[1] + len(self.text)


@dataclasses.dataclass
class Expression:
    """`name`, `path`, `arrow`, `part`, `borrow` and `call` have a name; `behind`, `call` and `other` have parts."""

    kind: str
    at: tuple
    name: Token = None
    parts: list = dataclasses.field(default_factory=list)
    labels: list = dataclasses.field(default_factory=list)
    sign: str = ""


@dataclasses.dataclass
class Bound:
    """A field that is bound: its name, the name of the variable, its type."""

    field: Token
    name: Token
    type: str


@dataclasses.dataclass
class Arm:
    at: tuple
    name: Token
    bound: list
    block: list


@dataclasses.dataclass
class Statement:
    """Its expressions in the order of the text, the variables that it declares, and its blocks."""

    kind: str
    at: tuple
    expressions: list = dataclasses.field(default_factory=list)
    bound: list = dataclasses.field(default_factory=list)
    blocks: list = dataclasses.field(default_factory=list)
    arms: list = dataclasses.field(default_factory=list)
    tests: list = dataclasses.field(default_factory=list)
    target: Token = None
    sign: str = ""
    end: tuple = None


@dataclasses.dataclass
class Parameter:
    """A field, a parameter or a type parameter: what stands behind the colon is its type or universe."""

    name: Token
    type: str


@dataclasses.dataclass
class Declaration:
    kind: str
    at: tuple
    name: Token
    generics: list = dataclasses.field(default_factory=list)
    parameters: list = dataclasses.field(default_factory=list)
    members: list = dataclasses.field(default_factory=list)
    result: str = ""
    block: list = None
    end: tuple = None
    head_end: tuple = None

    def holds(self, at):
        return self.at <= at < self.end


@dataclasses.dataclass
class Import:
    module: str
    at: tuple
    end: tuple
    items: list


@dataclasses.dataclass
class Module:
    name: str
    at: tuple
    is_body: bool
    imports: list
    declarations: list
    tokens: list


def cut(text):
    """The tokens of a text, up to the first byte that begins none."""
    tokens, place, line, start = [], 0, 1, 0
    while place < len(text):
        piece = PIECE.match(text, place)
        if not piece or piece[0] == '""' and text.startswith('"""', place):
            break
        if piece.lastgroup != "blank":
            kind = "keyword" if piece[0] in KEYWORDS else piece.lastgroup
            tokens.append(Token(kind, piece[0], (line, place - start + 1)))
        elif "\n" in piece[0]:
            line += piece[0].count("\n")
            start = place + piece[0].rindex("\n") + 1
        place = piece.end()
    return tokens


def shown(tokens):
    """Tokens of a type as one writes them."""
    return "".join(it.text + (" " if it.text in (",", ":") else "") for it in tokens)


class Reader:
    """Reads a module, token by token."""

    def __init__(self, tokens):
        self.tokens, self.next = tokens, 0

    def peek(self, ahead=0):
        at = self.next + ahead
        return self.tokens[at].text if at < len(self.tokens) else ""

    def kind(self, ahead=0):
        at = self.next + ahead
        return self.tokens[at].kind if at < len(self.tokens) else ""

    @property
    def at(self):
        if self.next >= len(self.tokens):
            raise Unreadable
        return self.tokens[self.next].at

    @property
    def past(self):
        """The place behind the last token that was read."""
        return self.tokens[self.next - 1].end

    def take(self):
        if self.next >= len(self.tokens):
            raise Unreadable
        self.next += 1
        return self.tokens[self.next - 1]

    def want(self, *texts):
        for text in texts:
            if self.take().text != text:
                raise Unreadable

    def accept(self, text):
        found = self.peek() == text and self.kind() != "text"
        self.next += found
        return found

    def name(self):
        if self.kind() != "name":
            raise Unreadable
        return self.take()

    def listed(self, item, close):
        """Items with commas between, up to a sign that closes."""
        items = [item()]
        while self.accept(","):
            items.append(item())
        self.want(close)
        return items

    def dotted(self):
        names = [self.name()]
        while self.accept("."):
            names.append(self.name())
        return names

    # Types

    def type(self):
        """Reads a type, and gives it as one writes it."""
        start = self.next
        self.walk_type()
        return shown(self.tokens[start : self.next]).rstrip()

    def walk_type(self):
        if self.accept("&") or self.accept("&!"):
            self.want("[")
            self.walk_type()
            self.want(",")
            self.name()
            self.want("]")
            return
        self.name()
        if self.accept("["):
            self.listed(self.walk_type, "]")

    def universe(self):
        token = self.take()
        if token.text not in ("Free", "Linear", "Type", "Region"):
            raise Unreadable
        return token.text

    def type_parameter(self):
        name = self.name()
        self.want(":")
        universe = self.universe()
        if self.accept("("):
            universe += "(" + ", ".join(it.text for it in self.listed(self.name, ")")) + ")"
        return Parameter(name, universe)

    def type_parameters(self):
        return self.listed(self.type_parameter, "]") if self.accept("[") else []

    # Expressions

    def expression(self):
        at = self.at
        if self.accept("if"):
            parts = [self.expression()]
            for word in ("then", "else"):
                self.want(word)
                parts.append(self.expression())
            return Expression("choice", at, parts=parts)
        if self.accept("not"):
            return Expression("other", at, parts=[self.atom()])
        left = self.atom()
        if self.peek() in OPERATORS and self.kind() != "text":
            sign = self.take().text
            return Expression("other", at, parts=[left, self.atom()], sign=sign)
        if self.accept(":"):
            self.type()
            return Expression("other", at, parts=[left])
        return left

    def atom(self):
        at = self.at
        if self.kind() in ("number", "text") or self.peek() in ("true", "false", "nil"):
            return Expression("literal", at, self.take())
        if self.accept("-"):
            if self.kind() != "number":
                raise Unreadable
            return Expression("literal", at, self.take())
        if self.accept("("):
            inside = self.expression()
            self.want(")")
            return Expression("parentheses", at, parts=[inside])
        if self.accept("!"):
            return Expression("behind", at, parts=[self.atom()])
        if self.peek() in ("&", "&!", "&~"):
            return self.borrow()
        return self.named()

    def borrow(self):
        at, sign = self.at, self.take().text
        if sign == "&" and self.accept("("):
            name = self.name()
            self.want("->")
            self.dotted()
            self.want(")")
            return Expression("part", at, name)
        return Expression("borrow", at, self.name(), sign=sign)

    def named(self):
        name = self.name()
        if self.accept("("):
            return self.call(name)
        if self.accept("->"):
            self.dotted()
            return Expression("arrow", name.at, name)
        if self.accept("."):
            self.dotted()
            return Expression("path", name.at, name)
        return Expression("name", name.at, name)

    def call(self, name):
        found = Expression("call", name.at, name)
        if self.accept(")"):
            return found
        found.parts = self.listed(lambda: self.argument(found.labels), ")")
        return found

    def argument(self, labels):
        if self.kind() == "name" and self.peek(1) == "=>":
            labels.append(self.name())
            self.want("=>")
        return self.expression()

    # Statements

    def block(self, *closers):
        statements = []
        while self.peek() not in closers:
            statements.append(self.statement())
        return statements

    def statement(self):
        at, word = self.at, self.peek()
        reading = {"skip": self.skip, "let": self.declare, "var": self.declare, "if": self.conditional,
            "case": self.case, "while": self.while_loop, "for": self.for_loop, "borrow": self.borrowing,
            "return": self.returned}
        statement = reading[word](at) if word in reading else self.assignment(at)
        statement.end = self.past
        return statement

    def skip(self, at):
        self.want("skip", ";")
        return Statement("skip", at)

    def bound(self):
        field = self.name()
        name = self.name() if self.accept("as") else field
        self.want(":")
        return Bound(field, name, self.type())

    def declare(self, at):
        word = self.take().text
        if word == "let" and self.accept("{"):
            statement = Statement("destructure", at, bound=self.listed(self.bound, "}"))
        else:
            name = self.name()
            self.want(":")
            statement = Statement("declare", at, bound=[Bound(name, name, self.type())])
        self.want(":=")
        statement.expressions = [self.expression()]
        self.want(";")
        return statement

    def conditional(self, at):
        statement = Statement("if", at)
        self.want("if")
        while True:
            test = self.expression()
            statement.expressions.append(test)
            statement.tests.append(test.at)
            self.want("then")
            statement.blocks.append(self.block("else", "end"))
            if not self.accept("else"):
                break
            if not self.accept("if"):
                statement.tests.append(self.tokens[self.next - 1].at)
                statement.blocks.append(self.block("end"))
                break
        self.want("end", "if", ";")
        return statement

    def case(self, at):
        self.want("case")
        statement = Statement("case", at, [self.expression()])
        self.want("of")
        while self.peek() == "when":
            statement.arms.append(self.arm())
        self.want("end", "case", ";")
        return statement

    def arm(self):
        at = self.at
        self.want("when")
        name = self.name()
        bound = self.listed(self.bound, ")") if self.accept("(") else []
        self.want("do")
        return Arm(at, name, bound, self.block("when", "end"))

    def while_loop(self, at):
        self.want("while")
        statement = Statement("while", at, [self.expression()])
        return self.loop(statement)

    def for_loop(self, at):
        self.want("for")
        name = self.name()
        self.want("from")
        first = self.expression()
        self.want("to")
        return self.loop(Statement("for", at, [first, self.expression()], [Bound(name, name, "")]))

    def loop(self, statement):
        self.want("do")
        statement.blocks = [self.block("end")]
        self.want("end", statement.kind, ";")
        return statement

    def borrowing(self, at):
        self.want("borrow")
        writes = self.accept("!")
        name = self.name()
        if self.accept("as"):
            reference = self.name()
            self.want("in")
            self.name()
            statement = Statement("borrow", at, bound=[Bound(reference, reference, "")], target=name)
            statement.sign = "&!" if writes else "&"
        else:
            self.want(":")
            bound = Bound(name, name, self.type())
            self.want(":=")
            sign = self.take().text
            statement = Statement("borrow", at, bound=[bound], target=self.name(), sign=sign)
        return self.loop(statement)

    def returned(self, at):
        self.want("return")
        statement = Statement("return", at, [self.expression()])
        self.want(";")
        return statement

    def assignment(self, at):
        if self.peek(1) == "(":
            call = self.named()
            self.want(";")
            return Statement("call", at, [call])
        target = self.name()
        sign = "->" if self.accept("->") else "."
        if sign == "->" or self.accept("."):
            self.dotted()
        self.want(":=")
        value = self.expression()
        self.want(";")
        return Statement("assign", at, [value], target=target, sign=sign)

    # Declarations

    def parameter(self):
        name = self.name()
        self.want(":")
        return Parameter(name, self.type())

    def signature(self, declaration):
        self.want("(")
        if not self.accept(")"):
            declaration.parameters = self.listed(self.parameter, ")")
        self.want(":")
        declaration.result = self.type()

    def declaration(self, is_body):
        at = self.at
        generics = self.type_parameters() if self.accept("generic") else []
        reading = {"constant": self.constant, "type": self.opaque, "record": self.record, "union": self.union,
            "function": self.function, "typeclass": self.typeclass, "instance": self.instance}
        if self.peek() not in reading:
            raise Unreadable
        kind = self.take().text
        found = Declaration(kind, at, self.name(), generics)
        reading[kind](found, is_body)
        found.end = self.past
        found.head_end = found.head_end or found.end
        return found

    def constant(self, found, is_body):
        self.want(":")
        found.result = self.type()
        found.head_end = self.past
        if is_body:
            self.want(":=")
            self.expression()
        self.want(";")

    def typed(self, found):
        found.generics = self.type_parameters()
        self.want(":")
        found.result = self.universe()
        found.head_end = self.past

    def opaque(self, found, _):
        self.typed(found)
        self.want(";")

    def fields(self, *closers):
        found = []
        while self.peek() not in closers:
            found.append(self.parameter())
            self.want(";")
        return found

    def record(self, found, _):
        self.typed(found)
        self.want("is")
        found.parameters = self.fields("end")
        self.want("end", ";")

    def union(self, found, _):
        self.typed(found)
        self.want("is")
        while self.peek() == "case":
            at = self.at
            self.want("case")
            case = Declaration("case", at, self.name(), end=self.past)
            if self.accept("is"):
                case.parameters = self.fields("end", "case")
            else:
                self.want(";")
            case.end = case.head_end = self.past
            found.members.append(case)
        self.want("end", ";")

    def function(self, found, is_body):
        self.signature(found)
        found.head_end = self.past
        if is_body:
            self.want("is")
            found.block = self.block("end")
            self.want("end")
        self.want(";")

    def methods(self, found, with_bodies):
        while self.peek() == "method":
            at = self.at
            self.want("method")
            method = Declaration("method", at, self.name())
            self.function(method, with_bodies)
            method.end = self.past
            found.members.append(method)
        self.want("end", ";")

    def typeclass(self, found, _):
        self.want("(")
        found.generics = [self.type_parameter()]
        self.want(")", "is")
        found.head_end = self.past
        self.methods(found, False)

    def instance(self, found, is_body):
        self.want("(")
        found.result = self.type()
        self.want(")")
        found.head_end = self.past
        if is_body:
            self.want("is")
            self.methods(found, True)
        else:
            self.want(";")

    # Modules

    def item(self):
        name = self.name()
        return name, self.name() if self.accept("as") else name

    def imported(self):
        self.want("import")
        names = self.dotted()
        self.want("(")
        items = self.listed(self.item, ")")
        self.want(";")
        return Import(".".join(it.text for it in names), names[0].at, names[-1].end, items)

    def module(self):
        imports = []
        while self.peek() == "import":
            imports.append(self.imported())
        self.want("module")
        is_body = self.accept("body")
        names = self.dotted()
        self.want("is")
        if self.accept("pragma"):
            self.name()
            self.want(";")
        declarations = []
        while self.peek() != "end":
            declarations.append(self.declaration(is_body))
        self.want("end", "module", *(["body"] if is_body else []), ".")
        name = ".".join(it.text for it in names)
        return Module(name, names[0].at, is_body, imports, declarations, self.tokens)


@functools.lru_cache(maxsize=256)
def heading(text):
    """The module's name and the modules that it imports, as far as these can be read."""
    reader, imports, name = Reader(cut(text)), [], ""
    try:
        while reader.peek() == "import":
            imports.append(reader.imported().module)
        reader.want("module")
        reader.accept("body")
        name = ".".join(it.text for it in reader.dotted())
    except Unreadable:
        pass
    return name, imports


@functools.lru_cache(maxsize=256)
def read(text):
    """The module of a file's text, or nothing where it has no tree."""
    try:
        return Reader(cut(text)).module()
    except Unreadable:
        return None


def text_of(path):
    """The text of a file, each character a byte; nothing where it can't be read."""
    try:
        with open(path, encoding="latin-1", newline="") as it:
            return it.read()
    except OSError:
        return None


def printed(text):
    """A piece of such a text as it is shown."""
    return text.encode("latin-1", "replace").decode("utf-8", "replace")


def expressions_of(statement):
    """The expressions of a statement alone, and all that are in them, in the order of the text."""
    for one in statement.expressions:
        yield from inside(one)


def inside(expression):
    yield expression
    for part in expression.parts:
        yield from inside(part)


def blocks_of(statement):
    return statement.blocks + [arm.block for arm in statement.arms]


def statements_of(block):
    """All statements of a block, also those within others."""
    for statement in block or ():
        yield statement
        for inner in blocks_of(statement):
            yield from statements_of(inner)


def functions_of(module):
    """Functions and methods with bodies."""
    for declaration in module.declarations:
        for one in (declaration, *declaration.members):
            if one.block is not None:
                yield one


def variables_of(function):
    """Yields each variable of a function: its name, its type where it is written, and where it is known."""
    for one in function.parameters:
        yield one.name, one.type, (one.name.at, function.end)
    yield from declared_in(function.block, function.end)


def declared_in(block, end):
    for statement in block or ():
        opens = statement.kind in ("for", "borrow")
        for one in statement.bound:
            yield one.name, one.type, (one.name.at, statement.end if opens else end)
        for arm in statement.arms:
            stop = last_of(arm.block, arm.at, statement.end)
            for one in arm.bound:
                yield one.name, one.type, (one.name.at, stop)
            yield from declared_in(arm.block, stop)
        for inner in statement.blocks:
            yield from declared_in(inner, last_of(inner, statement.at, statement.end))


def last_of(block, at, end):
    """Where what is declared in a block ends to be known: at the end of its last statement."""
    return block[-1].end if block else end
