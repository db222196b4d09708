"""What people who know another language type at first, and what to write: the tables of docs/REFUSALS.md and of the
pages docs/COMING-FROM-*.md, each row with the line by which it is refused. A source is like a row where the tokens at
the refused place are."""
import dataclasses
import functools
import glob
import os
import re

import austral_reading as reading
from austral_refusals import PAGE, TOP

ROW = re.compile(r"^\| `(.*?)` \| `m\.aum:(\d+):(\d+): (.*?)` \| (.*?) \|$", re.M)
# Where the text of a row begins that is refused in a line; `end` begins a line.
BEGINS = {1: 1, 2: 5, 3: 9}
BOUNDARIES = (";", "is", "then", "else", "do", "of", "")
BAD_ESCAPE = re.compile(r'"(?:[^"\\]|\\[nrt"\\])*\\[^nrt"\\]')


@dataclasses.dataclass
class Slip:
    typed: str
    text: str
    write: str
    offset: int
    page: str

    def hint(self):
        link = re.fullmatch(r"\[(.*)\]\(#.*\)", self.write)
        if link:
            return f"For `{self.typed}` see \"{link[1]}\" in {self.page}."
        return f"For `{self.typed}` one writes {self.write}."


@functools.lru_cache(maxsize=None)
def slips():
    """The rows of the pages."""
    found = []
    for page in (PAGE, *sorted(glob.glob(f"{TOP}/docs/COMING-FROM-*.md"))):
        with open(page, encoding="utf-8") as it:
            text = it.read().replace("\\|", "\0")
        for typed, line, column, says, write in ROW.findall(text):
            typed, write = typed.replace("\0", "|"), write.replace("\0", "|")
            begin = 1 if typed.startswith("end ") else BEGINS.get(int(line), 1)
            found.append(Slip(typed, says, write, int(column) - begin, os.path.relpath(page, TOP)))
    return found


def kind_of(token):
    """A token as it is compared: a name is like any other, and so is a number and a text."""
    return token.text if token.kind in ("keyword", "sign") else token.kind


def number_at(tokens, at):
    return next((number for number, it in enumerate(tokens) if it.at == at), None)


def is_foreign(tokens, number):
    """Whether a name in a row is a word of another language, as `fn` and `elsif`: it is no letter, and no type."""
    text = tokens[number].text
    return tokens[number].kind == "name" and len(text) > 1 and text.islower() and (
        number == 0 or tokens[number - 1].text != ".")


def alike(row, number, tokens, other):
    """Whether a token of a row is like one of a source; beyond the row nothing is wanted."""
    if not 0 <= number < len(row):
        return True
    if not 0 <= other < len(tokens):
        return False
    if is_foreign(row, number):
        return row[number].text == tokens[other].text
    return kind_of(row[number]) == kind_of(tokens[other])


def wanted_before(row, refused):
    """How many tokens before the refused one a source must share with a row: signs that end much say little."""
    if row[refused].text == ";" and row[refused - 1].kind == "name":
        return refused
    return 3 if row[refused].text == ")" else 2


def likeness(slip, tokens, number):
    """How many of the tokens round the refused one are those of a row, 0 where it isn't like it: some before it and it
    itself must be, and at the beginning of a row the next one too."""
    row = reading.cut(slip.typed)
    refused = number_at(row, (1, slip.offset + 1))
    if refused is None:
        return 0
    if not all(alike(row, refused - by, tokens, number - by) for by in range(wanted_before(row, refused) + 1)):
        return 0
    next_too = alike(row, refused + 1, tokens, number + 1)
    if refused == 0:
        before = tokens[number - 1].text if number else ""
        return 2 + is_foreign(row, 0) if next_too and before in BOUNDARIES else 0
    return 3 + next_too + (refused > 1)


def by_syntax(text, at):
    """The rows that are most like a text at a place that is refused as `syntax`."""
    tokens = reading.cut(text)
    number = number_at(tokens, at)
    if number is None:
        return []
    ranked = [(likeness(it, tokens, number), it) for it in slips() if it.text == "syntax"]
    best = max((it for it, _ in ranked), default=0)
    return [slip for much, slip in ranked if much == best > 0]


def by_byte(text, at):
    """The rows in which the same byte begins no token."""
    source = text.split("\n")[at[0] - 1] if at[0] <= text.count("\n") + 1 else ""
    rest = source[at[1] - 1 :]
    if rest.startswith('"') and not BAD_ESCAPE.match(rest):
        return []
    ranked = [(common(it.typed[it.offset :], rest), it) for it in slips() if it.text == "byte"]
    best = max((it for it, _ in ranked), default=0)
    return [slip for much, slip in ranked if much == best > 0]


def common(one, other):
    """How many characters two texts begin with alike."""
    return next((at for at, (a, b) in enumerate(zip(one, other)) if a != b), min(len(one), len(other)))


def by_text(says):
    """The rows that are refused by the same words."""
    return [it for it in slips() if it.text == says]
