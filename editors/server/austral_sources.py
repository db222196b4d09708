"""The files round a program: which modules there are, and what a name means in one of them."""
import dataclasses
import functools
import glob
import os
import re

import austral_reading as reading
from austral_refusals import TOP

LANGUAGE = f"{TOP}/docs/LANGUAGE.md"
PERVASIVE = "Austral.Pervasive"
BUILT_IN = """Unit Bool Nat8 Nat16 Nat32 Nat64 Int8 Int16 Int32 Int64 Index Span Static""".split()
INTEGERS = BUILT_IN[2:11]


@dataclasses.dataclass
class Part:
    """An interface or a body, and its file."""

    path: str
    module: reading.Module


@dataclasses.dataclass
class Meaning:
    """What a name means: a declaration, the union or the class that it stands in, and its part."""

    declaration: reading.Declaration
    owner: reading.Declaration
    part: Part


@functools.lru_cache(maxsize=None)
def shipped():
    """The interfaces of the modules that come with the compiler, as docs/LANGUAGE.md has them, with their places
    there."""
    text = reading.text_of(LANGUAGE) or ""
    parts = []
    for found in re.finditer(r"^    module [\w.]+ is\n(?:    .*\n|\n)*?    end module\.\n", text, re.M):
        before = text[: found.start()].count("\n")
        module = reading.read("\n" * before + found[0])
        parts += [Part(LANGUAGE, module)] if module else []
    return parts


def meanings_in(part):
    """Yields each name that a part declares, with its meaning: cases and methods are names too."""
    for one in part.module.declarations:
        if one.kind != "instance":
            yield one.name.text, Meaning(one, None, part)
        if one.kind in ("union", "typeclass"):
            for member in one.members:
                yield member.name.text, Meaning(member, one, part)


def nearby(paths):
    """The files of the language beside files and in the current folder, one folder deeper and one higher; without
    those files."""
    folders = {os.path.dirname(os.path.abspath(it)) for it in paths} | {os.getcwd()}
    patterns = [f"{glob.escape(folder)}/{way}*.au[im]" for folder in folders for way in ("", "*/", "../")]
    found = {os.path.normpath(it) for pattern in patterns for it in glob.glob(pattern)}
    return sorted(found - {os.path.abspath(it) for it in paths}, key=lambda it: (it.count("/"), it))


class Sources:
    """Files by their paths, each read when it is asked for; texts of some may be given."""

    def __init__(self, paths=(), texts=None):
        self.paths, self.texts, self.parts = list(paths), dict(texts or {}), {}

    def text(self, path):
        if path not in self.texts:
            self.texts[path] = reading.text_of(path)
        return self.texts[path]

    def part(self, path):
        """The part in a file, or nothing where it has no tree."""
        if path not in self.parts:
            text = self.text(path)
            module = reading.read(text) if text is not None else None
            self.parts[path] = Part(path, module) if module else None
        return self.parts[path]

    def all_parts(self):
        for path in self.paths:
            self.part(path)
        return [it for it in self.parts.values() if it] + shipped()

    def module_names(self):
        return sorted({it.module.name for it in self.all_parts()})

    def parts_of(self, name, beside=None):
        """The parts of a module, the interface first; those of the folder of a file before others."""
        found = [it for it in self.all_parts() if it.module.name == name]
        folder = os.path.dirname(os.path.abspath(beside.path)) if beside else ""
        found.sort(key=lambda it: (os.path.dirname(os.path.abspath(it.path)) != folder, it.module.is_body))
        seen, kept = set(), []
        for part in found:
            if part.module.is_body not in seen:
                seen.add(part.module.is_body)
                kept.append(part)
        return kept

    def interface_of(self, name, beside=None):
        return next((it for it in self.parts_of(name, beside) if not it.module.is_body), None)

    def offered(self, name, beside=None):
        """What the interface of a module offers."""
        part = self.interface_of(name, beside)
        return list(meanings_in(part)) if part else []

    def own_parts(self, part):
        """A part, and for a body the interface of its module, for an interface its body."""
        others = [it for it in self.parts_of(part.module.name, part) if it.module.is_body != part.module.is_body]
        return [part, *others[:1]]

    def visible(self, part):
        """The names that mean something in a part, each with its meanings."""
        names = {}
        for own in self.own_parts(part):
            for name, meaning in meanings_in(own):
                names.setdefault(name, []).append(meaning)
        self.add_imports(part, names)
        for name, meaning in self.offered(PERVASIVE):
            names.setdefault(name, []).append(meaning)
        return names

    def add_imports(self, part, names):
        for one in part.module.imports:
            offered = self.offered(one.module, part)
            for name, alias in one.items:
                for offers, meaning in offered:
                    if offers == name.text:
                        names.setdefault(alias.text, []).append(meaning)
                    elif meaning.owner and meaning.owner.name.text == name.text:
                        names.setdefault(offers, []).append(meaning)

    def meanings(self, part, name, *kinds):
        """What a name means in a part, of these kinds."""
        return [it for it in self.visible(part).get(name, []) if not kinds or it.declaration.kind in kinds]

    def function_at(self, part, at):
        """The function or method whose declaration holds a place."""
        found = [it for it in reading.functions_of(part.module) if it.at <= at < it.end]
        return found[-1] if found else None

    def statement_at(self, part, at):
        """The innermost statement that begins at a place, or else the one that holds it."""
        function = self.function_at(part, at)
        every = list(reading.statements_of(function.block)) if function else []
        begins = [it for it in every if it.at == at]
        return (begins or [it for it in every if it.at <= at < it.end] or [None])[-1]

    def universe(self, part, written):
        """`Free`, `Linear` or `Type` of a written type, as far as its first name says."""
        if written.startswith("&"):
            return "Linear" if written.startswith("&!") else "Free"
        name = written.partition("[")[0]
        if name in BUILT_IN:
            return "Free"
        for meaning in self.meanings(part, name, "record", "union", "type"):
            return meaning.declaration.result
        return "Type"
