"""Which files make the program of a file that is edited, and what the built compiler says of it."""
import dataclasses
import os
import re
import shutil
import subprocess
import tempfile

import austral_reading as reading
import austral_refusals as refusals
from austral_refusals import TOP
from austral_sources import nearby, shipped

PATIENCE = 30
ENTRY = re.compile(r"    (\d+):(\d+) (born|consumed|written|read|looked)(?: to (\d+):(\d+))?")


def built_program(named=None):
    """The program that is named, by the client or the variable AUSTRAL_PROGRAM, or that of this clone, or the one on
    the path; nothing where none is there."""
    built = f"{TOP}/crates/austral_cli/out/austral_cli"
    for one in (named, os.environ.get("AUSTRAL_PROGRAM"), built, shutil.which("austral")):
        if one and os.access(one, os.X_OK):
            return os.path.abspath(one)
    return None


class Headings:
    """The modules of files, read as far as their imports and their names: also files that aren't whole."""

    def __init__(self, sources, paths):
        self.sources, self.of = sources, {}
        for path in paths:
            self.of[path] = reading.heading(sources.text(path) or "")

    def files_of(self, name, beside):
        """The files of a module, its interface first: those of one folder, of the folder of a file rather than
        another's."""
        folder = os.path.dirname(beside)
        found = [it for it, (module, _) in self.of.items() if module == name]
        found.sort(key=lambda it: (os.path.dirname(it) != folder, os.path.dirname(it), it.endswith(".aum"), it))
        ours = [it for it in found if os.path.dirname(it) == os.path.dirname(found[0])]
        first = {it[-4:]: it for it in reversed(ours)}
        return [first[it] for it in (".aui", ".aum") if it in first]


def program_of(path, sources):
    """The files of the program in which a file is the last module: each module stands behind those that it
    imports."""
    headings = Headings(sources, {path, *nearby([path])})
    known, files = {it.module.name for it in shipped()}, []

    def add(name, own):
        if name in known:
            return
        known.add(name)
        for file in own:
            for imported in headings.of[file][1]:
                add(imported, headings.files_of(imported, file))
        files.extend(own)

    name = headings.of[path][0]
    own = [it for it in headings.files_of(name, path) if name and it[-4:] != path[-4:]] + [path]
    add(name or path, sorted(own, key=lambda it: it.endswith(".aum")))
    return files or [path]


@dataclasses.dataclass
class Said:
    """What the compiler says of a program: its status, what it writes, and the refusal with its real files."""

    status: int
    out: str
    refusal: refusals.Refusal = None
    files: list = dataclasses.field(default_factory=list)


def asked(program, command, files, sources):
    """What the program says of files as their texts are now, saved or not: they are written into a folder of
    their own."""
    with tempfile.TemporaryDirectory(prefix="austral.") as room:
        names = [f"{number}{file[-4:]}" for number, file in enumerate(files)]
        for name, file in zip(names, files):
            with open(f"{room}/{name}", "w", encoding="latin-1", newline="") as it:
                it.write(sources.text(file) or "")
        done = subprocess.run([program, command, *names], cwd=room, stdin=subprocess.DEVNULL, capture_output=True,
            timeout=PATIENCE, check=False)
    line = done.stderr.decode(errors="replace").strip("\n")
    refusal = refusals.refusal_of(line) if line else None
    if refusal:
        named_again(refusal, dict(zip(names, files)))
    elif done.returncode:
        raise OSError(f"{program} ends with status {done.returncode}: {line}")
    return Said(done.returncode, done.stdout.decode(errors="replace"), refusal, files)


def named_again(refusal, files):
    """Puts the names of the real files into a refusal."""
    for place in (refusal.place, refusal.other):
        if place:
            place.file = files.get(place.file, place.file)
    short = {name: os.path.basename(file) for name, file in files.items()}
    refusal.text = re.sub(r"\b\d+\.au[im]\b(?=:\d)", lambda it: short.get(it[0], it[0]), refusal.text)


@dataclasses.dataclass
class Life:
    """The life of a variable as `explain` tells it: its type, where it is born, and its mentions."""

    module: str
    function: str
    name: str
    type: str
    born: tuple = None
    mentions: list = dataclasses.field(default_factory=list)


def lives(out):
    """The lives that `explain` writes."""
    found, head = [], ("", "")
    for line in out.split("\n"):
        entry = ENTRY.fullmatch(line)
        if entry and entry[3] == "born":
            found[-1].born = int(entry[1]), int(entry[2])
        elif entry:
            found[-1].mentions.append((int(entry[1]), int(entry[2]), entry[3], int(entry[4] or 0)))
        elif line.startswith("  "):
            name, _, written = line.strip().partition(": ")
            found.append(Life(*head, name, written))
        elif line:
            head = tuple(line.rsplit(":", 1))
    return found
