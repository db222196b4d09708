"""The lines by which the compiler refuses, and what docs/REFUSALS.md says of each: what is told here is taken from
that page, so that it is what the page says."""
import dataclasses
import functools
import os
import re
import textwrap

import austral_reading as reading

TOP = os.path.dirname(os.path.dirname(os.path.dirname(os.path.realpath(__file__))))
PAGE = f"{TOP}/docs/REFUSALS.md"
HEAD = re.compile(r"^### `(.*)`$", re.M)
# What a letter in a head stands for, as the page says: places, words without a blank, and any words.
LETTERS = {
    **dict.fromkeys("PQ", r".+?:\d+:\d+"),
    **dict.fromkeys(("COUNT", "N"), r"[^ ]+"),
    **dict.fromkeys(("n", "x", "C", "T", "U", "W", "FILE"), r".+"),
}
WIDTH = 100


@dataclasses.dataclass
class Section:
    """A section of the page: its head, what the line says, why the rule is there, and what to do."""

    head: str
    says: str
    why: str
    do: str
    pattern: re.Pattern


@dataclasses.dataclass
class Place:
    file: str
    line: int
    column: int

    @property
    def at(self):
        return self.line, self.column


@dataclasses.dataclass
class Refusal:
    """A line: its section, its places, and what stands in it for the other letters of the head."""

    text: str
    section: Section
    values: dict
    place: Place = None
    other: Place = None


def pattern_of(head):
    """A head as a pattern, with a group for each of its letters."""
    pattern = ""
    for part in re.split(r"(\b(?:P|Q|COUNT|N|n|x|C|T|U|W|FILE)\b|\[a, b\]| \.\.$)", head):
        if part in LETTERS:
            pattern += f"(?P<{part}>{LETTERS[part]})"
        elif part == "[a, b]":
            pattern += r"\[(?P<path>[\d, ]*)\]"
        elif part == " ..":
            pattern += "(?P<rest> .*)"
        else:
            pattern += re.escape(part)
    return re.compile(f"^{pattern}$")


def paragraphs(text):
    """The paragraphs of a section, each on one line, and a block of code as nothing."""
    text = re.sub(r"^```.*?^```$", "\n\n", text, flags=re.M | re.S)
    return [" ".join(it.split()) for it in re.split(r"\n\s*\n", text) if it.strip()]


def section_of(head, text):
    told = paragraphs(re.split(r"^#", text, maxsplit=1, flags=re.M)[0])
    says = next((it for it in told[:1] if not it.startswith(("*Why:*", "`"))), "")
    reason = next((it for it in told if it.startswith("*Why:*")), "*Why:* *What to do:*")
    why, _, do = reason.removeprefix("*Why:*").partition("*What to do:*")
    return Section(head, says, why.strip(), do.strip(), pattern_of(head))


@functools.lru_cache(maxsize=None)
def sections():
    """The sections of the page, in its order."""
    with open(PAGE, encoding="utf-8") as it:
        parts = HEAD.split(it.read())
    return [section_of(head, text) for head, text in zip(parts[1::2], parts[2::2])]


def place_of(text):
    file, line, column = text.rsplit(":", 2)
    return Place(file, int(line), int(column))


def refusal_of(line):
    """The refusal that a line tells, or nothing where it tells none."""
    for section in sections():
        found = section.pattern.match(line)
        if found:
            values = found.groupdict()
            place, other = (place_of(values[it]) if values.get(it) else None for it in "PQ")
            return Refusal(line, section, values, place, other)
    return None


def capital(text):
    """A text with a capital in front, unless it begins with code."""
    return text[:1].upper() + text[1:]


def short_form(section):
    """What is told of a section: what the line says, and what to do, without what is said of the page's program
    (`Here ..`)."""
    do = re.sub(r"(?<![^ ])Here (?:`[^`]*`|[^.`])*\.(?: |$)", "", section.do).strip()
    return [it for it in (section.says, f"What to do: {do}") if it]


def wrapped(text, indent="  "):
    return textwrap.fill(text, WIDTH, initial_indent=indent, subsequent_indent=indent, break_long_words=False,
        break_on_hyphens=False)


def excerpt(text, at):
    """The line of a file at a place and a line with a caret under it: two strings without what is put in front."""
    line, column = at
    lines = text.split("\n")
    if line > len(lines) or line == len(lines) and not lines[-1]:
        return "(the end of the file)", "^"
    source = lines[line - 1].rstrip("\r")
    size = next((len(it.text) for it in reading.cut(source) if it.at[1] == column), 1)
    before, marked = reading.printed(source[: column - 1]), reading.printed(source[column - 1 :][:size])
    blanks = "".join("\t" if it == "\t" else " " for it in before)
    return reading.printed(source), blanks + "^" * max(len(marked), 1)
