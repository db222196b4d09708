"""A path that a refusal of a life tells, `path [1, 0]`, in words: the choices that it makes, and where it meets the
variable. It goes as docs/LANGUAGE.md says ("Lives of variables")."""
import dataclasses

import austral_reading as reading

VERBS = {"consumed": "is consumed", "written": "is written", "read": "is lent for reading", "looked": "is looked at"}


@dataclasses.dataclass
class Event:
    """A choice, a mention of the variable, or a borrow statement on it that begins or ends."""

    kind: str
    at: tuple
    says: str
    step: int = 0


@dataclasses.dataclass
class Scope:
    """A variable: its name where it is declared, its written type, and the block over which its life is judged."""

    name: reading.Token
    type: str
    block: list
    end: tuple


def scopes_of(function):
    for one in function.parameters:
        yield Scope(one.name, one.type, function.block, function.end)
    yield from scopes_in(function.block, function.end)


def scopes_in(block, end):
    for number, statement in enumerate(block):
        inner = statement.kind in ("for", "borrow")
        for one in statement.bound:
            rest = statement.blocks[0] if inner else block[number + 1 :]
            yield Scope(one.name, one.type, rest, statement.end if inner else end)
        for each in statement.blocks:
            yield from scopes_in(each, statement.end)
        for arm in statement.arms:
            for one in arm.bound:
                yield Scope(one.name, one.type, arm.block, statement.end)
            yield from scopes_in(arm.block, statement.end)


class Walk:
    """The path through a block that choices pick, as events."""

    def __init__(self, name, is_free, choices):
        self.name, self.alone = name, "looked" if is_free else "consumed"
        self.choices, self.events, self.steps = list(choices), [], 0

    def choose(self):
        return self.choices.pop(0) if self.choices else 0

    def tell(self, kind, at, says):
        self.events.append(Event(kind, at, says, self.steps))

    def mention(self, kind, at):
        self.tell(kind, at, f"`{self.name}` {VERBS[kind]}")

    def expression(self, one):
        """A whole expression is one step."""
        self.steps += 1
        self.inside(one)

    def inside(self, one):
        if one.kind != "call" and one.name and one.name.text == self.name and one.kind != "literal":
            kinds = {"name": self.alone, "borrow": "read" if one.sign == "&" else "written"}
            self.mention(kinds.get(one.kind, "looked"), one.name.at)
        parts = one.parts
        while one.kind == "behind" and parts[0].kind == "parentheses":
            parts = parts[0].parts
        if one.kind == "behind" and parts[0].kind == "name" and parts[0].name.text == self.name:
            self.mention("looked", parts[0].name.at)
            return
        for part in parts:
            self.inside(part)

    def block(self, block):
        """Whether the path returns in a block."""
        return any(self.statement(it) for it in block)

    def statement(self, one):
        if one.kind in ("if", "case", "while", "for", "borrow"):
            return getattr(self, "go_" + {"if": "conditional"}.get(one.kind, one.kind))(one)
        for each in one.expressions:
            self.expression(each)
        if one.kind == "assign" and one.target.text == self.name:
            self.steps += 1
            self.mention("looked" if one.sign == "->" else "written", one.target.at)
        if one.kind == "return":
            self.tell("return", one.at, "the function returns")
        return one.kind == "return"

    def go_conditional(self, one):
        choice = min(self.choose(), len(one.expressions))
        for test in one.expressions[: choice + 1]:
            self.expression(test)
        line = one.tests[min(choice, len(one.tests) - 1)][0]
        if choice < len(one.expressions):
            self.tell("choice", one.tests[choice], "the test holds")
        elif choice < len(one.blocks):
            self.tell("choice", one.at, f"no test holds, so the block behind `else` at line {line} is taken")
        else:
            self.tell("choice", one.at, f"no test holds, so {untaken(one)}")
        return choice < len(one.blocks) and self.block(one.blocks[choice])

    def go_case(self, one):
        self.expression(one.expressions[0])
        if not one.arms:
            self.choose()
            return False
        arm = one.arms[min(self.choose(), len(one.arms) - 1)]
        self.tell("choice", arm.at, f"the arm of `{arm.name.text}` is taken")
        return self.block(arm.block)

    def turns(self, one, tests):
        """The turns of a loop: whether the path returns in one."""
        made = 0
        while True:
            for test in tests:
                self.expression(test)
            if self.choose() == 0:
                self.tell("choice", one.at, "the loop ends" if made else "the loop makes no turn")
                return False
            made += 1
            self.tell("choice", one.at, "the loop makes a turn" if made == 1 else "the loop makes one more turn")
            if self.block(one.blocks[0]):
                return True

    def go_while(self, one):
        return self.turns(one, one.expressions)

    def go_for(self, one):
        for bound in one.expressions:
            self.expression(bound)
        return self.turns(one, [])

    def go_borrow(self, one):
        self.steps += 1
        lends = one.target.text == self.name
        if lends:
            kind = "lent" if one.sign == "&" else "lent to write"
            how = "for reading" if kind == "lent" else "for writing"
            self.tell(kind, one.target.at, f"`{self.name}` is lent {how} up to line {one.end[0]}")
        returns = self.block(one.blocks[0])
        if lends:
            self.tell("given back", one.end, f"`{self.name}` is given back")
        return returns


def untaken(one):
    """What isn't done where no test of a conditional without `else` holds."""
    lines = [block[0].at[0] for block in one.blocks if block]
    if not lines:
        return "no arm is taken"
    if len(lines) == 1:
        return f"the arm at line {lines[0]} isn't taken"
    return f"the arms at lines {', '.join(map(str, lines[:-1]))} and {lines[-1]} aren't taken"


def at_fault(kind, events):
    """The first event that breaks a life so, and what to say of it; nothing for the end of the scope."""
    gone, lent, steps = False, [], {}
    for one in events:
        if one.kind in ("lent", "lent to write"):
            lent.append(one)
        elif one.kind == "given back":
            lent.pop()
        if one.kind not in (*VERBS, "lent", "lent to write"):
            continue
        if kind == "met again" and gone:
            return one, f"`{{}}` is met again, when it was consumed at line {gone.at[0]}"
        if kind == "borrowed" and one.kind in VERBS and lent and (
                lent[-1].kind == "lent to write" or one.kind in ("consumed", "written")):
            return one, f"`{{}}` {VERBS[one.kind]}, and it is lent since line {lent[-1].at[0]}"
        before = steps.get(one.step)
        if kind == "clash" and before and {"consumed", "written"} & {one.kind, before.kind}:
            return one, f"`{{}}` {VERBS[one.kind]} in the expression in which it {VERBS[before.kind]}"
        steps[one.step] = one
        gone = one if one.kind == "consumed" and not gone else gone
    return None, None


def scope_at(function, at):
    return next((it for it in scopes_of(function) if it.name.at == at), None)


def told(scope, is_free, kind, choices):
    """A path in words: for each event that is on it, up to the fault, its line and what happens there."""
    walk = Walk(scope.name.text, is_free, choices)
    walk.block(scope.block)
    fault, says = at_fault(kind, walk.events)
    lines = []
    for one in walk.events:
        if one is fault:
            return lines + [(one.at[0], says.format(scope.name.text))]
        if one.kind != "return":
            lines.append((one.at[0], one.says))
    end = walk.events[-1] if walk.events and walk.events[-1].kind == "return" else None
    where = (end.at[0], "the function returns") if end else (scope.end[0], f"the scope of `{scope.name.text}` ends")
    return lines + [(where[0], f"{where[1]}, and `{scope.name.text}` was never consumed")]
