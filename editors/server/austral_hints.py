"""What the sources say of a refusal beyond its line: which name may have been meant, which arms, labels or methods
differ, and what a path is. Each hint is a sentence; where nothing is found there is none."""
import difflib
import os
import re

import austral_paths as paths
import austral_reading as reading
import austral_slips as slips
from austral_sources import BUILT_IN, INTEGERS, meanings_in


def ticked(names, word="and"):
    """Names in backticks: `a`, `b` and `c`."""
    names = [f"`{it}`" for it in names]
    return names[0] if len(names) == 1 else f"{', '.join(names[:-1])} {word} {names[-1]}"


def near(name, others):
    """The names that are like one: the same in other letters, or few letters away."""
    others = sorted(set(others) - {name})
    same = [it for it in others if it.lower() == name.lower()]
    return same or difflib.get_close_matches(name, others, 2, 0.65)


def did_you_mean(name, others):
    found = near(name, others)
    return [f"Did you mean {ticked(found, 'or')}?"] if found else []


def signature(declaration):
    """What is called, as one writes it: `f(x: Nat8): Unit`."""
    inside = ", ".join(f"{it.name.text}: {it.type}" for it in declaration.parameters)
    result = f": {declaration.result}" if declaration.kind in ("function", "method") else ""
    return f"{declaration.name.text}({inside}){result}"


class Hints:
    """The hints for one refusal."""

    def __init__(self, refusal, sources):
        self.refusal, self.sources, self.values = refusal, sources, refusal.values
        self.part = sources.part(refusal.place.file) if refusal.place else None
        self.at = refusal.place.at if refusal.place else None

    def statement(self):
        return self.sources.statement_at(self.part, self.at)

    def function(self):
        return self.sources.function_at(self.part, self.at)

    def all(self):
        head = self.refusal.section.head
        found = BY_HEAD.get(head)
        needs_part = head.startswith("P: ") and head not in ("P: syntax", "P: byte")
        return found(self) if found and (self.part or not needs_part) else []

    # What is typed by those who know another language

    def syntax(self):
        text = self.sources.text(self.refusal.place.file) or ""
        return [it.hint() for it in slips.by_syntax(text, self.at)[:1]]

    def byte(self):
        text = self.sources.text(self.refusal.place.file) or ""
        return [it.hint() for it in slips.by_byte(text, self.at)[:1]]

    def typed(self):
        """The same words of another language in a table."""
        says = self.refusal.text.split(": ", 1)[1]
        return [it.hint() for it in slips.by_text(says)[:1]]

    # Names

    def missing(self):
        folder, name = os.path.split(self.values["FILE"])
        there = os.listdir(folder or ".") if os.path.isdir(folder or ".") else []
        stem, kind = os.path.splitext(name)
        files = [it for it in there if it.endswith((".aui", ".aum"))]
        stems = near(stem, [os.path.splitext(it)[0] for it in files])
        meant = [it for it in files if os.path.splitext(it)[0] in (*stems, stem)]
        meant = [it for it in meant if it.endswith(kind or "-")] or meant
        return [f"Did you mean {ticked(sorted(meant), 'or')}?"] if meant else []

    def entry(self):
        module, name = self.values["N"], self.values["n"]
        parts = [it for it in self.sources.parts_of(module) if it.module.is_body]
        if not parts:
            return did_you_mean(module, self.sources.module_names())
        functions = [it for it in parts[0].module.declarations if it.kind == "function"]
        for one in functions:
            if one.name.text == name:
                generic = " with type parameters" if one.generics else ""
                return [f"Line {one.at[0]} has `{signature(one)}`{generic}."]
        good = [it.name.text for it in functions if it.result == "ExitCode"]
        return did_you_mean(name, [it.name.text for it in functions]) or (
            [f"Functions that return an `ExitCode`: {ticked(good)}."] if good else [])

    def no_module(self):
        return did_you_mean(self.values["N"], self.sources.module_names())

    def not_visible(self):
        name = self.values["n"]
        for one in self.part.module.imports:
            if one.at <= self.at and any(self.at in (it[0].at, it[1].at) for it in one.items):
                return self.not_offered(name, one.module)
        types = [it for it, found in self.sources.visible(self.part).items()
            if any(one.declaration.kind in ("record", "union", "type", "typeclass") for one in found)]
        return self.typed() or did_you_mean(name, types + BUILT_IN) + self.offered_elsewhere(name)

    def not_offered(self, name, module):
        offers = [it for it, _ in self.sources.offered(module, self.part)]
        bodies = [it for it in self.sources.parts_of(module, self.part) if it.module.is_body]
        if any(it.name.text == name for body in bodies for it in body.module.declarations):
            return [f"The body of `{module}` declares it, and its interface doesn't."]
        return did_you_mean(name, offers)

    def offered_elsewhere(self, name):
        modules = [it for it in self.sources.module_names() if it != self.part.module.name
            and any(name == one for one, _ in self.sources.offered(it, self.part))]
        return [f"`{it}` offers it: `import {it} ({name});`." for it in modules[:2]]

    def unknown(self):
        name, token = self.values["n"], None
        statement = self.statement()
        if statement:
            stop = statement.arms[-1].at if statement.arms else statement.end
            token = next((number for number, it in enumerate(self.part.module.tokens)
                if it.text == name and self.at <= it.at < max(stop, statement.end)), None)
        before, behind = self.around(token)
        if before in (".", "->"):
            return did_you_mean(name, self.fields())
        visible = self.sources.visible(self.part)
        callables = [it for it, found in visible.items() if any(is_called(one) for one in found)]
        if name in callables and behind != "(":
            called = next(it for it in visible[name] if is_called(it)).declaration
            labels = ", ".join(it.name.text for it in called.parameters)
            kind = "a case" if called.kind == "case" else "called"
            return [f"`{name}` is {kind}: write `{name}({labels})`."]
        others = callables if behind == "(" else self.variables() + list(visible) + BUILT_IN
        return (self.known_elsewhere(name) or self.typed() or did_you_mean(name, others)
            or self.offered_elsewhere(name) or self.variables_told(behind))

    def around(self, number):
        """What stands before and behind a token."""
        tokens = self.part.module.tokens
        if number is None:
            return "", ""
        return (tokens[it].text if 0 <= it < len(tokens) else "" for it in (number - 1, number + 1))

    def fields(self):
        found = [one for every in self.sources.visible(self.part).values() for one in every]
        return [it.name.text for one in found if one.declaration.kind == "record" for it in one.declaration.parameters]

    def variables(self):
        function = self.function()
        return [name.text for name, _, (begin, end) in reading.variables_of(function)
            if begin < self.at <= end] if function else []

    def variables_told(self, behind):
        known = self.variables()
        if not known or len(known) > 6 or behind == "(":
            return []
        return [f"Variables that are known there: {ticked(known)}."]

    def known_elsewhere(self, name):
        """Where a variable of this name is known, if not here."""
        function = self.function()
        for one, _, (begin, end) in reading.variables_of(function) if function else ():
            if one.text == name and not begin < self.at < end:
                return [f"Line {begin[0]} declares `{name}`, which is known from there to line {end[0]}."]
        return []

    def declared_again(self):
        name, function = self.values["n"], self.function()
        first = [it for it, _, _ in reading.variables_of(function)] if function else []
        for own in self.sources.own_parts(self.part):
            first += [meaning.declaration.name for it, meaning in meanings_in(own) if it == name]
        first = sorted(it.at for it in first if it.text == name and it.at != self.at)
        return [f"Line {first[0][0]} declares `{name}` too."] if first else []

    # Types

    def wanted(self):
        wanted, found = self.values["T"], self.values["U"]
        written = self.written_otherwise(wanted, found)
        if written:
            return written
        lent = re.fullmatch(r"(&!?)\[(.*), [\w~]+\]", wanted)
        if lent and lent[2] == found:
            return [f"A `{lent[1]}` is missing: write `{lent[1]}x` for a variable `x` that holds the value."]
        behind = re.fullmatch(r"&!?\[(.*), [\w~]+\]", found)
        if behind and behind[1] == wanted:
            return ["What is found is a reference to such a value: `!r` reads what is behind a reference `r`."]
        if re.fullmatch(r"Austral\.Pervasive:Option\[(.*)\]|Option\[(.*)\]", found) and found.endswith(f"[{wanted}]"):
            return ["The value may be missing: take it apart by `case`, with an arm for `Some` and one for `None`."]
        if wanted in INTEGERS and found in INTEGERS:
            return [f"`to{wanted}` of the value gives an `Option[{wanted}]`."]
        return []

    def written_otherwise(self, wanted, found):
        """What is bound with another type than it has."""
        statement = self.statement()
        if not statement or statement.kind not in ("case", "destructure"):
            return []
        wanted, found = (re.sub(r"\b[\w.]+:(?=\w)", "", it) for it in (wanted, found))
        bound = [*statement.bound, *(it for arm in statement.arms for it in arm.bound)]
        return [f"Line {it.name.at[0]} binds `{it.name.text}`: write its type as `{wanted}`." for it in bound
            if it.type == found][:1]

    def arguments(self):
        found = []
        for call in self.calls():
            for meaning in self.sources.meanings(self.part, call.name.text):
                has = len(meaning.declaration.parameters)
                if is_called(meaning) and not call.labels and has != len(call.parts):
                    found.append(f"`{signature(meaning.declaration)}` is called with {len(call.parts)} at line "
                        f"{call.at[0]}.")
        return found[:1]

    def calls(self):
        statement = self.statement()
        return [it for it in reading.expressions_of(statement) if it.kind == "call"] if statement else []

    def labels(self):
        statement = self.statement()
        if not statement:
            return []
        for call in self.calls():
            for meaning in self.sources.meanings(self.part, call.name.text):
                if call.labels and is_called(meaning):
                    hint = self.compared(call.labels, meaning.declaration, "labels")
                    if hint:
                        return hint
        if statement.kind == "destructure":
            return self.destructured(statement)
        for arm in statement.arms:
            for meaning in self.sources.meanings(self.part, arm.name.text, "case"):
                hint = self.compared([it.field for it in arm.bound], meaning.declaration, "fields")
                if hint:
                    return hint
        return []

    def compared(self, labels, declaration, what):
        """How labels differ from the names of a declaration."""
        wanted = [it.name.text for it in declaration.parameters]
        wrong = differences([it.text for it in labels], wanted, guesses=True)
        has = f"`{declaration.name.text}` has the {what} {ticked(wanted)}" if wanted else (
            f"`{declaration.name.text}` has no {what}")
        return [f"{has}: {'; '.join(wrong)}."] if wrong else []

    def destructured(self, statement):
        labels = [it.field for it in statement.bound]
        records = self.records_of(statement.expressions[0])
        if not records:
            every = [one.declaration for found in self.sources.visible(self.part).values() for one in found]
            names = {it.text for it in labels}
            records = sorted((it for it in every if it.kind == "record"),
                key=lambda it: -len(names & {one.name.text for one in it.parameters}))
        return self.compared(labels, records[0], "fields") if records else []

    def type_name(self, expression):
        """The name of an expression's type, where that is written: a variable's type, or what is called."""
        written, function = "", self.function()
        if expression.kind == "name" and function:
            name = expression.name.text
            written = next((it for one, it, _ in reading.variables_of(function) if one.text == name), "")
        if expression.kind == "call":
            called = self.sources.meanings(self.part, expression.name.text, "function", "record")
            written = next((it.declaration.result if it.declaration.kind == "function" else expression.name.text
                for it in called), "")
        return re.sub(r"^&!?\[", "", written).partition("[")[0].partition(",")[0]

    def records_of(self, expression):
        return [it.declaration for it in self.sources.meanings(self.part, self.type_name(expression), "record")]

    def arms(self):
        statement = self.statement()
        if not statement or statement.kind != "case":
            return []
        names = [it.name.text for it in statement.arms]
        owners = [it.owner for name in names for it in self.sources.meanings(self.part, name, "case")]
        written = self.sources.meanings(self.part, self.type_name(statement.expressions[0]), "union")
        if not owners and not written:
            return []
        union = written[0].declaration if written else max(owners, key=owners.count)
        cases = [it.name.text for it in union.members]
        wrong = differences(names, cases)
        if not wrong:
            return [f"The arms are the cases of `{union.name.text}`, and the value is of another type."]
        return [f"`{union.name.text}` has the cases {ticked(cases)}: {'; '.join(wrong)}."]

    # Declarations

    def method(self):
        instance = next((it for it in self.part.module.declarations if it.at == self.at), None)
        if not instance:
            return []
        found = []
        for meaning in self.sources.meanings(self.part, instance.name.text, "typeclass"):
            parameter = meaning.declaration.generics[0].name.text
            wanted = {it.name.text: replaced(signature(it), parameter, instance.result)
                for it in meaning.declaration.members}
            has = [it.name.text for it in instance.members]
            wrong = differences(has, list(wanted), "is no method of the class")
            wrong += [f"line {it.at[0]} has `{signature(it)}`, and the class `{wanted[it.name.text]}`"
                for it in instance.members if wanted.get(it.name.text, signature(it)) != signature(it)]
            found += [f"The instance of `{instance.name.text}`: {'; '.join(wrong)}."] if wrong else []
        return found[:1]

    def differs(self):
        other = self.sources.part(self.refusal.other.file)
        here = declaration_at(self.part, self.at)
        there = declaration_at(other, self.refusal.other.at) if other else None
        if not here or not there:
            return []
        result = {"type": "universe", "constant": "type", "instance": "type"}.get(here.kind, "result")
        return [f"They differ in {what}: `{one or 'none'}` in the interface, `{two or 'none'}` in the body."
            for what, one, two in zip(("type parameters", "parameters", result), said(here), said(there))
            if one != two]

    # Lives

    def life(self):
        function = self.function()
        scope = paths.scope_at(function, self.at) if function else None
        if not scope:
            return []
        choices = [int(it) for it in re.findall(r"\d+", self.values["path"])]
        kind = re.search(r": (unused|met again|clash|borrowed), path", self.refusal.text)[1]
        is_free = self.sources.universe(self.part, scope.type) == "Free"
        lines = paths.told(scope, is_free, kind, choices)
        return ["The path:", *(f"- line {line}: {says}" for line, says in lines)]

    def in_a_loop(self):
        """Where the variable is declared, and the loop in which it is consumed."""
        function, name = self.function(), self.values["x"]
        known = reading.variables_of(function) if function else ()
        declared = next((one.at for one, _, (begin, end) in known if one.text == name and begin < self.at <= end), None)
        loops = [it for it in reading.statements_of(function.block) if it.kind in ("while", "for")
            and declared < it.at <= self.at < it.end] if declared else []
        return [f"Line {declared[0]} declares `{name}`, outside of the loop from line {loops[0].at[0]} to line "
            f"{loops[0].end[0]}."] if loops else []


def is_called(meaning):
    return meaning.declaration.kind in ("function", "method", "record", "case")


def declaration_at(part, at):
    return next((it for it in part.module.declarations if it.at == at), None)


def replaced(text, name, written):
    """A signature with a type in the place of a type parameter."""
    return re.sub(rf"(?<=[:\[ ]){re.escape(name)}(?=[\],)]|$)", lambda _: written, text)


def said(declaration):
    """Type parameters, parameters and result of a declaration, as one writes them."""
    listed = [", ".join(f"{it.name.text}: {it.type}" for it in some)
        for some in (declaration.generics, declaration.parameters)]
    if declaration.kind in ("record", "union"):
        listed[1] = ""
    return [*listed, declaration.result]


def differences(has, wanted, no_such="isn't among them", guesses=False):
    """How a list of names differs from the names that are wanted, each once. Where one is missing, another name may
    stand for it."""
    missing = [it for it in wanted if it not in has]
    wrong = [f"{ticked([it])} is missing" for it in missing]
    for name in dict.fromkeys(has):
        if name not in wanted:
            meant = near(name, missing)[:1] or (missing if guesses and len(missing) == 1 else [])
            wrong.append(f"{ticked([name])} {no_such}" + (f" (did you mean {ticked(meant)}?)" if meant else ""))
    return wrong + [f"{ticked([it])} stands {has.count(it)} times" for it in dict.fromkeys(has)
        if it in wanted and has.count(it) > 1]


BY_HEAD = {
    "missing: FILE": Hints.missing,
    "entry: N:n": Hints.entry,
    "P: byte": Hints.byte,
    "P: syntax": Hints.syntax,
    "P: no module N": Hints.no_module,
    "P: name not visible: n": Hints.not_visible,
    "P: declared again: n": Hints.declared_again,
    "P: differs from Q: n": Hints.differs,
    "P: method differs": Hints.method,
    "P: type: unknown n": Hints.unknown,
    "P: type: wanted T, found U": Hints.wanted,
    "P: type: wanted N arguments": Hints.arguments,
    "P: type: wanted other labels": Hints.labels,
    "P: type: wanted other arms": Hints.arms,
    "P: linear x: unused, path [a, b]": Hints.life,
    "P: linear x: met again, path [a, b]": Hints.life,
    "P: linear x: clash, path [a, b]": Hints.life,
    "P: linear x: borrowed, path [a, b]": Hints.life,
    "P: linear x: consumed in a loop": Hints.in_a_loop,
}


def hints(refusal, sources):
    return Hints(refusal, sources).all()
