"""Programs of one scene, made at random by type, so that many are accepted and each that is has much to break: linear
records and unions, boxes and buffers in one another, references to all of them, borrow statements, reborrows, swaps,
`case` over values and behind references, generic functions at types that hold references.

Which variables are still there is kept while a body is written, and broken now and then, so that the judge has to say
which programs are good. A type is a tuple: ("n",) for Nat8, a name alone for what takes no argument, (name, type) for
Hold, Option, Box, Buffer and Vault, and ("read" or "write", type, region) for references."""

DOORS = """module Doors is
type Door: Linear;
type Vault[T: Type]: Linear;
function opened(n: Nat8): Door;
function shut(door: Door): Nat8;
generic [R: Region] function seen(door: &[Door, R]): Nat8;
generic [R: Region] function turned(door: &![Door, R], n: Nat8): Nat8;
generic [T: Type] function locked(item: T): Vault[T];
generic [T: Type] function freed(vault: Vault[T]): T;
generic [T: Type, R: Region] function inside(vault: &[Vault[T], R]): &[T, R];
generic [T: Type, R: Region] function within(vault: &![Vault[T], R]): &![T, R];
end module.
"""
DOORS_BODY = """import Standard.Box (Box, makeBox, unbox, boxGet, boxGetMut);
module body Doors is
record Door: Linear is n: Nat8; end;
union Vault[T: Type]: Linear is case Closed_ is box: Box[T]; end;
function opened(n: Nat8): Door is return Door(n); end;
function shut(door: Door): Nat8 is let { n: Nat8 } := door; return n; end;
generic [R: Region] function seen(door: &[Door, R]): Nat8 is return door->n; end;
generic [R: Region] function turned(door: &![Door, R], n: Nat8): Nat8 is door->n := n; return door->n; end;
generic [T: Type] function locked(item: T): Vault[T] is return Closed_(makeBox(item)); end;
generic [T: Type] function freed(vault: Vault[T]): T is case vault of when Closed_(box: Box[T]) do return unbox(box);
end case; end;
generic [T: Type, R: Region] function inside(vault: &[Vault[T], R]): &[T, R] is
case vault of when Closed_(box: &[Box[T], R]) do return boxGet(box); end case; end;
generic [T: Type, R: Region] function within(vault: &![Vault[T], R]): &![T, R] is
case vault of when Closed_(box: &![Box[T], R]) do return boxGetMut(box); end case; end;
end module body.
"""
IMPORTS = """import Doors (Door, Vault, opened, shut, seen, turned, locked, freed, inside, within);
import Standard.Box (Box, makeBox, unbox, boxGet, boxGetMut);
import Standard.Buffer (Buffer, makeEmpty, destroyEmpty, length, insertBack, removeBack, nth, replaceNth);
"""
SCENE = """module body M is
record L: Linear is v: Nat8; end;
record P: Linear is a: L; b: L; n: Nat8; end;
record Q: Free is x: Nat8; y: Nat8; end;
record S: Linear is q: Q; u: U; end;
record Hold[T: Type]: Type is item: T; end;
union U: Linear is case None_; case One is one: L; case Two is left: L; right: P; end;
union F: Free is case Zero; case Num is num: Nat8; case Pair_ is pair: Q; end;
function eatL(x: L): Nat8 is let { v: Nat8 } := x; return v; end;
function eatP(x: P): Nat8 is let { a: L, b: L, n: Nat8 } := x;
let c: Nat8 := eatL(b); let d: Nat8 := eatL(a); return n; end;
function eatU(x: U): Nat8 is case x of when None_ do return 0; when One(one: L) do return eatL(one);
when Two(left: L, right: P) do let c: Nat8 := eatL(left); return eatP(right); end case; end;
function eatS(x: S): Nat8 is let { q: Q, u: U } := x; return eatU(u); end;
function eatD(x: Door): Nat8 is return shut(x); end;
typeclass Ended(T: Type) is method ended(value: T): Nat8; end;
instance Ended(L) is method ended(value: L): Nat8 is return eatL(value); end; end;
instance Ended(P) is method ended(value: P): Nat8 is return eatP(value); end; end;
instance Ended(U) is method ended(value: U): Nat8 is return eatU(value); end; end;
instance Ended(Door) is method ended(value: Door): Nat8 is return shut(value); end; end;
generic [T: Type(Ended)] instance Ended(Hold[T]) is method ended(value: Hold[T]): Nat8 is
let { item: T } := value; return ended(item); end; end;
generic [T: Type(Ended)] instance Ended(Box[T]) is method ended(value: Box[T]): Nat8 is
return ended(unbox(value)); end; end;
generic [T: Type(Ended)] function finish(x: T): Nat8 is return ended(x); end;
generic [T: Type] function same(x: T): T is return x; end;
generic [T: Type, R: Region] function look(r: &[T, R]): Nat8 is return 1; end;
generic [T: Type, R: Region] function poke(r: &![T, R]): Nat8 is return 2; end;
generic [T: Type, R: Region] function keep(r: &![T, R]): &![T, R] is return r; end;
generic [R: Region] function left_(r: &[P, R]): &[L, R] is return &(r->a); end;
generic [T: Type, R: Region] function either(a: &[T, R], b: &[T, R]): &[T, R] is return a; end;
generic [T: Type, R: Region] function trade(a: &![T, R], b: T): T is return swap(a, b); end;
generic [T: Type, R: Region, K: Region] function mix(a: &![T, R], b: &[T, K]): Nat8 is return 3; end;
generic [R: Region] function raise(r: &![L, R]): Nat8 is r->v := 7; return r->v; end;
generic [R: Region] function value(r: &[L, R]): Nat8 is return r->v; end;
generic [R: Region] function one_of(r: &[U, R], d: &[L, R]): &[L, R] is
case r of when None_ do return d; when One(one: &[L, R]) do return one;
when Two(left: &[L, R], right: &[P, R]) do return &(right->b); end case; end;
"""
END = "end module body.\n"

N, L, P, Q, S, U, F, D = [(name,) for name in ["Nat8", "L", "P", "Q", "S", "U", "F", "Door"]]
ENDED = (L, P, U, D)
FREE = {N, Q, F}
FIELDS = {L: [("v", N)], P: [("a", L), ("b", L), ("n", N)], Q: [("x", N), ("y", N)], S: [("q", Q), ("u", U)]}
CASES = {U: [("None_", []), ("One", [("one", L)]), ("Two", [("left", L), ("right", P)])],
         F: [("Zero", []), ("Num", [("num", N)]), ("Pair_", [("pair", Q)])]}
SIMPLE = [N, L, L, L, P, Q, S, U, U, F, D]


def text(of):
    """A type as it is written."""
    if of[0] in ("read", "write"):
        return f"&{'!' if of[0] == 'write' else ''}[{text(of[1])}, {of[2]}]"
    return of[0] if len(of) == 1 else f"{of[0]}[{text(of[1])}]"


def is_free(of):
    if of[0] in ("read",):
        return True
    if of[0] in ("Hold", "Option"):
        return is_free(of[1])
    return of in FREE


def fields_of(of):
    return [("item", of[1])] if of[0] == "Hold" else FIELDS.get(of)


def cases_of(of):
    if of[0] == "Option":
        return [("None", []), ("Some", [("value", of[1])])]
    return CASES.get(of)


class Variable:
    def __init__(self, name, of, mutable=False, depth=0):
        self.name, self.of, self.mutable, self.depth = name, of, mutable, depth
        self.there = True   # not consumed
        self.lent = ""      # "read" or "write" where a borrow statement on it is open


class Scene:
    """One program, written line by line."""

    def __init__(self, random, wild):
        self.random, self.wild = random, wild
        self.lines, self.scope, self.count, self.loop = [], [], 0, 0
        self.functions = []

    def chance(self, of):
        return self.random.random() < of

    def fresh(self, begin="x"):
        self.count += 1
        return f"{begin}{self.count}"

    def some_type(self, depth=2):
        if depth and self.chance(0.45):
            kind = self.random.choice(["Hold", "Option", "Box", "Box", "Buffer", "Vault"])
            return (kind, self.some_type(depth - 1))
        regions = [v.of[2] for v in self.scope if v.of[0] in ("read", "write") and v.there]
        if regions and self.chance(0.25):
            kind = self.random.choice(["read", "write"])
            held = self.random.choice([v.of for v in self.scope if v.of[0] in ("read", "write")])
            return (kind if self.chance(0.1) else held[0], held[1], held[2])
        return self.random.choice(SIMPLE)

    def usable(self, v, how):
        """Whether a variable may be met so: "move", "look", "read" or "write"."""
        if self.chance(self.wild):
            return True
        if not v.there:
            return False
        if how == "move":
            return is_free(v.of) and v.lent != "write" or not v.lent and v.depth >= self.loop
        if how == "write":
            return not v.lent
        return v.lent != "write"

    def variables(self, test, how):
        return [v for v in self.scope if test(v) and self.usable(v, how)]

    def take(self, v):
        if not is_free(v.of):
            v.there = False
        return v.name

    # Expressions. Each gives its text, or None where none was found.

    def make(self, of, depth):
        """An expression of this type. A reference's region may be None: any region."""
        if depth < -4:
            return None
        ways = [self.variable, self.variable, self.variable, self.made, self.called]
        self.random.shuffle(ways)
        if of[0] not in ("read", "write"):
            ways.append(lambda of, _: self.made(of, 0))
        before = [(v, v.there) for v in self.scope]
        for way in ways:
            found = way(of, depth)
            if found is not None:
                return found
            for v, there in before:
                v.there = there
        return None

    def fits(self, of, wanted):
        if of == wanted:
            return True
        return of[0] == wanted[0] and of[0] in ("read", "write") and of[1] == wanted[1] and wanted[2] is None

    def variable(self, of, depth):
        found = self.variables(lambda v: self.fits(v.of, of), "move")
        return self.take(self.random.choice(found)) if found else None

    def borrowed(self, of):
        """`&x`, `&!x` or `&~r`."""
        kind = of[0]
        found = self.variables(lambda v: v.of == of[1], kind)
        lent = self.variables(lambda v: v.of[0] == "write" and v.of[1] == of[1], "write") if kind == "write" else []
        if not found and not lent:
            return None
        v = self.random.choice(found + lent)
        if v in lent and v not in found:
            return f"&~{v.name}"
        return f"&{'!' if kind == 'write' else ''}{v.name}"

    def made(self, of, depth):
        kind = of[0]
        if kind in ("read", "write"):
            if of[2] is not None:
                return None
            found = self.borrowed(of)
            if found:
                return found
            if depth > 0 and kind == "read" and of[1] == L:
                inner = self.variables(lambda v: v.of[0] == "read" and v.of[1] in (P,), "look")
                if inner:
                    return f"&({self.random.choice(inner).name}->{self.random.choice('ab')})"
            if depth > 0 and self.chance(0.3):
                inner = self.make((kind, ("Vault", of[1]), None), depth - 1)
                return f"{'within' if kind == 'write' else 'inside'}({inner})" if inner else None
            if depth > 0:
                inner = self.make((kind, ("Box", of[1]), None), depth - 1)
                if inner:
                    return f"boxGet{'Mut' if kind == 'write' else ''}({inner})"
            return None
        if of == N:
            return self.number(depth)
        if kind == "Buffer":
            return "makeEmpty()"
        if kind == "Vault":
            return self.call("locked", [of[1]], depth)
        if of == D:
            return self.call("opened", [N], depth)
        if kind == "Box":
            return self.call("makeBox", [of[1]], depth)
        if kind == "Option" and (self.chance(0.3) or depth <= 0):
            return "None()"
        if kind == "Option":
            return self.call("Some", [of[1]], depth)
        if kind == "Hold":
            return self.call("Hold", [of[1]], depth)
        if of in CASES:
            name, fields = self.random.choice(CASES[of] if depth > 0 else CASES[of][:2])
            return self.call(name, [field for _, field in fields], depth)
        fields = FIELDS[of]
        if self.chance(0.15):
            parts = [(name, self.make(field, depth - 1)) for name, field in fields]
            if any(part is None for _, part in parts):
                return None
            self.random.shuffle(parts)
            return f"{kind}({', '.join(f'{name} => {part}' for name, part in parts)})"
        return self.call(kind, [field for _, field in fields], depth)

    def call(self, name, wanted, depth):
        before, parts = [(v, v.there) for v in self.scope], []
        for of in wanted:
            part = self.make(of, depth - 1)
            if part is None:
                for v, there in before:
                    v.there = there
                return None
            parts.append(part)
        return f"{name}({', '.join(parts)})"

    def number(self, depth):
        if depth > 0 and self.chance(0.6):
            of = self.random.choice(SIMPLE)
            way = self.random.randrange(13)
            if way == 0:
                return self.call("look", [("read", self.some_type(1), None)], depth)
            if way == 1:
                return self.call("poke", [("write", self.some_type(1), None)], depth)
            if way == 2:
                return self.call("eatL", [L], depth)
            if way == 3:
                return self.call("raise", [("write", L, None)], depth)
            if way == 4:
                return self.call("value", [("read", L, None)], depth)
            if way == 5:
                return self.call("mix", [("write", of, None), ("read", of, None)], depth)
            if way == 6:
                inner = self.make(("read", N, None), depth - 1)
                return f"!{inner}" if inner and inner[0] != "&" else None
            if way == 7:
                inner = self.make(("read", ("Buffer", N), None), depth - 1)
                return f"nth({inner}, 0)" if inner else None
            if way in (8, 9):
                return self.call(self.random.choice(["ended", "finish"]), [self.random.choice(ENDED)], depth)
            if way == 10:
                return self.call("seen", [("read", D, None)], depth)
            if way == 11:
                return self.call("turned", [("write", D, None), N], depth)
            heads = self.variables(lambda v: v.of[0] in ("read", "write") and v.of[1] == L, "look")
            if heads:
                return f"{self.random.choice(heads).name}->v"
        heads = self.variables(lambda v: v.of in (L, P), "look")
        if heads and self.chance(0.3):
            v = self.random.choice(heads)
            return f"{v.name}.{'v' if v.of == L else 'n'}"
        return str(self.random.randrange(10))

    def called(self, of, depth):
        if depth <= 0:
            return None
        kind = of[0]
        ways = [("same", [of])]
        if kind == "read":
            ways += [("either", [of, of]), ("boxGet", [(kind, ("Box", of[1]), of[2])])]
            if of[1] == L:
                ways += [("left_", [(kind, P, of[2])]), ("one_of", [(kind, U, of[2]), of])]
        elif kind == "write":
            ways += [("keep", [of]), ("boxGetMut", [(kind, ("Box", of[1]), of[2])])]
        else:
            ways += [("swap", [("write", of, None), of]), ("trade", [("write", of, None), of]),
                     ("unbox", [("Box", of)]),
                     ("freed", [("Vault", of)]),
                     ("removeBack", [("write", ("Buffer", of), None)])]
        if kind in ("read", "write") and of[2] is None and ways[0][0] == "same":
            ways = ways[1:]
        name, wanted = self.random.choice(ways)
        return self.call(name, wanted, depth - 1)

    # Statements.

    def put(self, line):
        self.lines.append(line)

    def declare(self, name, of, mutable=False):
        v = Variable(name, of, mutable, self.loop)
        self.scope.append(v)
        return v

    def block(self, size, depth):
        """Statements in a block of their own. What it declares is consumed at its end."""
        begin = len(self.scope)
        for _ in range(self.random.randrange(1, max(size, 1) + 1)):
            self.statement(size, depth)
        self.finish(begin)

    def finish(self, begin):
        for _ in range(40):
            left = [v for v in self.scope[begin:] if v.there and not is_free(v.of) and v.of[0] != "write"]
            if not left:
                break
            v = self.random.choice(left)
            if self.chance(self.wild / 3):
                v.there = False
            else:
                self.consume(v)
        del self.scope[begin:]

    def consume(self, v):
        """A statement that consumes a variable; what it holds is declared anew, or dropped by a function."""
        of, kind = v.of, v.of[0]
        v.there = False
        drops = {L: "eatL", P: "eatP", U: "eatU", S: "eatS", D: "eatD"}
        if self.chance(0.2) and self.is_ended(of):
            self.put(f"printLn({self.random.choice(['ended', 'finish'])}({v.name}));")
        elif of == D or of in drops and self.chance(0.6):
            self.put(f"printLn({drops[of]}({v.name}));")
        elif kind in ("Box", "Vault"):
            name = self.fresh()
            self.put(f"let {name}: {text(of[1])} := {'unbox' if kind == 'Box' else 'freed'}({v.name});")
            self.declare(name, of[1])
        elif kind == "Buffer":
            if self.chance(0.5) and is_free(of[1]) is False:
                name = self.fresh()
                self.put(f"while length(&{v.name}) > 0 do")
                self.put(f"let {name}: {text(of[1])} := removeBack(&!{v.name});")
                begin, loop = len(self.scope), self.loop
                self.loop += 1
                v.there = True
                self.declare(name, of[1])
                self.finish(begin)
                self.loop = loop
                v.there = False
                self.put("end while;")
            self.put(f"destroyEmpty({v.name});")
        elif fields_of(of):
            self.apart(v)
        elif cases_of(of):
            self.arms(v.name, of, None, 1, 1)

    def is_ended(self, of):
        return of in ENDED or of[0] in ("Hold", "Box") and self.is_ended(of[1])

    def apart(self, v):
        parts = []
        for label, of in fields_of(v.of):
            name = self.fresh()
            parts.append(f"{label} as {name}: {text(of)}")
            self.declare(name, of)
        self.random.shuffle(parts)
        self.put(f"let {{ {', '.join(parts)} }} := {v.name};")

    def arms(self, scrutinee, of, lent, size, depth):
        """A `case` of a value of this type, or behind a reference where it is lent by a kind and a region."""
        self.put(f"case {scrutinee} of")
        before = [(v, v.there) for v in self.scope]
        after = []
        for name, fields in cases_of(of):
            for v, there in before:
                v.there = there
            begin, parts = len(self.scope), []
            for label, field in fields:
                mine = self.fresh()
                field = (lent[0], field, lent[1]) if lent else field
                parts.append(f"{label} as {mine}: {text(field)}")
                self.declare(mine, field)
            self.put(f"when {name}{'(' + ', '.join(parts) + ')' if parts else ''} do")
            for _ in range(self.random.randrange(0, max(size, 0) + 1)):
                self.statement(size - 1, depth)
            self.finish(begin)
            after.append([v.there for v, _ in before])
        self.level(before, after)
        self.put("end case;")

    def level(self, before, after):
        for index, (v, _) in enumerate(before):
            v.there = all(there[index] for there in after)

    def statement(self, size, depth):
        ways = [self.let, self.let, self.let, self.borrow, self.borrow, self.use, self.use, self.assign, self.part]
        if depth > 0:
            ways += [self.branch, self.turn, self.matched, self.matched, self.seen, self.seen]
        self.random.choice(ways)(size, depth)

    def let(self, size, depth):
        of = self.some_type()
        made = self.make(of, 3)
        if made is None:
            return
        name = self.random.choice(self.scope).name if self.scope and self.chance(self.wild / 4) else self.fresh()
        mutable = self.chance(0.3)
        self.put(f"{'var' if mutable else 'let'} {name}: {text(of)} := {made};")
        self.declare(name, of, mutable)

    def use(self, size, depth):
        way = self.random.randrange(4)
        if way == 0:
            of = self.some_type(1)
            done = self.call("insertBack", [("write", ("Buffer", of), None), of], 2)
        elif way == 1:
            number = self.number(3)
            done = f"printLn({number})" if number and not number.isdigit() else None
        elif way == 2:
            done = self.call("raise", [("write", L, None)], 3)
        else:
            of = self.some_type(1)
            made = self.make(of, 3) if is_free(of) else None
            done = f"same({made})" if made and of[0] != "read" else None
        if done:
            self.put(f"{done};")

    def assign(self, size, depth):
        places = [f"{v.name}->v" for v in self.scope if v.of[0] == "write" and v.of[1] == L and self.usable(v, "look")]
        places += [f"{v.name}->n" for v in self.scope if v.of[0] == "write" and v.of[1] == P and self.usable(v, "look")]
        places += [f"{v.name}.v" for v in self.scope if v.mutable and v.of == L and self.usable(v, "write")]
        places += [v.name for v in self.scope if v.mutable and v.of == N and self.usable(v, "write")]
        if places:
            number = self.number(2)
            if number:
                self.put(f"{self.random.choice(places)} := {number};")
        else:
            free = [v for v in self.scope if v.mutable and is_free(v.of) and self.usable(v, "write")]
            if free:
                v = self.random.choice(free)
                made = self.make(v.of, 2)
                if made:
                    self.put(f"{v.name} := {made};")

    def part(self, size, depth):
        found = self.variables(lambda v: fields_of(v.of) and v.depth >= self.loop and not v.lent, "move")
        if found:
            v = self.random.choice(found)
            self.take(v)
            self.apart(v)

    def borrow(self, size, depth):
        kind = self.random.choice(["read", "write", "write"])
        found = self.variables(lambda v: v.of[0] not in ("Nat8",), kind)
        if not found:
            return
        v = self.random.choice(found)
        again = v.of[0] == "write" and kind == "write" and self.chance(0.7)
        of = v.of[1] if again else v.of
        name, region = self.fresh("r"), self.fresh("R")
        if again:
            self.put(f"borrow {name}: &![{text(of)}, {region}] := &~{v.name} do")
        elif self.chance(0.4):
            sign = "&!" if kind == "write" else "&"
            self.put(f"borrow {name}: {sign}[{text(of)}, {region}] := {sign}{v.name} do")
        else:
            self.put(f"borrow{'!' if kind == 'write' else ''} {v.name} as {name} in {region} do")
        before, v.lent = v.lent, kind
        begin = len(self.scope)
        self.declare(name, (kind, of, region))
        for _ in range(self.random.randrange(1, max(size, 1) + 2)):
            self.statement(size, depth)
        self.finish(begin)
        v.lent = before
        self.put("end borrow;")

    def branch(self, size, depth):
        self.put(f"if {self.random.choice(['c', 'not c', 'true', 'false'])} then")
        before = [(v, v.there) for v in self.scope]
        self.block(size - 1 or 1, depth - 1)
        after = [[v.there for v, _ in before]]
        for v, there in before:
            v.there = there
        if self.chance(0.6):
            self.put("else")
            self.block(size - 1 or 1, depth - 1)
        after.append([v.there for v, _ in before])
        self.even(before, after)
        self.put("end if;")

    def even(self, before, after):
        for index, (v, _) in enumerate(before):
            v.there = all(there[index] for there in after)

    def turn(self, size, depth):
        name = self.fresh("i")
        self.put(f"for {name} from 1 to 2 do")
        self.loop += 1
        self.block(size - 1 or 1, depth - 1)
        self.loop -= 1
        self.put("end for;")

    def matched(self, size, depth):
        found = self.variables(lambda v: cases_of(v.of) and v.depth >= self.loop and not v.lent, "move")
        if found:
            v = self.random.choice(found)
            self.take(v)
            self.arms(v.name, v.of, None, max(size - 1, 1), depth - 1)

    def seen(self, size, depth):
        found = self.variables(lambda v: v.of[0] in ("read", "write") and cases_of(v.of[1]), "move")
        if found:
            v = self.random.choice(found)
            if v.of[0] == "write":
                if v.depth < self.loop:
                    return
                v.there = False
            self.arms(v.name, v.of[1], (v.of[0], v.of[2]), max(size - 1, 1), depth - 1)

    # Programs.

    def program(self):
        size = self.random.randrange(2, 5)
        self.put("function main(): ExitCode is")
        self.put("var c: Bool := true;")
        begin = len(self.scope)
        for _ in range(self.random.randrange(2, 10)):
            self.statement(size, 2)
        self.finish(begin)
        self.put("return ExitSuccess();")
        self.put("end;")
        main = IMPORTS + SCENE + "\n".join(self.lines) + "\n" + END
        files = [("doors.aui", DOORS), ("doors.aum", DOORS_BODY), ("main.aum", main)]
        return [(name, text.encode()) for name, text in files], ["doors.aui,doors.aum", "main.aum"], b""


def program(random, wild=0.02):
    """A program: its files, the words of its parts, and its input."""
    return Scene(random, wild).program()
