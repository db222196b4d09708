"""How far a line of Austral is indented: by two blanks for each declaration, block and arm that is open."""
import dataclasses

import austral_reading as reading

STEP = 2
LOOPS = ("while", "for", "borrow")


@dataclasses.dataclass
class Open:
    """What is open: `module`, a declaration, `field` for a case of a union with fields, `block`, `case` or `arm`; and
    how far its first line is indented."""

    kind: str
    indent: int


class Layout:
    """What is open behind some tokens."""

    def __init__(self):
        self.open, self.first, self.indent, self.choices, self.ends = [], None, 0, [], False

    def top(self, *kinds):
        return bool(self.open) and self.open[-1].kind in kinds

    def close(self, *kinds):
        if self.top(*kinds):
            self.open.pop()

    def take(self, token, indent):
        """Goes on by a token on a line that is indented so far."""
        if self.first is None:
            self.first, self.indent = token.text, indent
            self.begin(token.text)
        elif self.ends:
            self.end(token.text)
        else:
            self.go_on(token.text)

    def done(self):
        self.first, self.choices, self.ends = None, [], False

    def begin(self, word):
        """The first token of a declaration, a statement or a part of one."""
        if word == "end":
            self.ends = True
        elif word == "else":
            self.close("block")
            self.first = "else"
        elif word == "when":
            self.close("arm")
        elif word == "case":
            self.close("field")
        elif word == ";":
            self.done()

    def end(self, word):
        """What stands behind `end`."""
        if word == "case":
            self.close("arm")
            self.close("case")
        elif word in ("if", *LOOPS):
            self.close("block")
        elif word == "module":
            self.open = []
        elif word == ";" and self.first == "end":
            self.close("field")
            self.close("declaration")
        if word in (";", "."):
            self.done()
        else:
            self.first = "ended"

    def go_on(self, word):
        if word == "if" and self.first == "else":
            self.first = "else if"
        elif word == "if":
            self.choices.append("if")
        elif word == "then" and self.choices and self.choices[-1] == "if":
            self.choices[-1] = "then"
        elif word == "else" and self.choices and self.choices[-1] == "then":
            self.choices.pop()
        elif word == "is":
            kinds = {"module": "module", "case": "field"}
            self.push(kinds.get(self.first, "declaration"))
        elif word == "then":
            self.push("block")
        elif word == "do":
            self.push("arm" if self.first == "when" else "block")
        elif word == "of":
            self.push("case")
        elif word == ";":
            self.done()

    def push(self, kind):
        self.open.append(Open(kind, self.indent))
        self.done()

    def after_else(self, word):
        """An `else` that isn't followed by `if` opens its block."""
        if self.first == "else" and not self.choices and word != "if":
            self.push("block")

    def inner(self):
        return self.open[-1].indent + STEP if self.open else 0

    def of_line(self, tokens):
        """How far a line with these tokens is indented, none where nothing stands there."""
        words = [it.text for it in tokens[:2]] + ["", ""]
        if self.first == "else" and words[0] != "if":
            return self.indent + STEP
        if self.first is not None:
            closes = words[0] in (")", "]", "}", "is", "then", "do", "of")
            return self.indent if closes or self.first == "generic" or self.ends else self.indent + STEP
        return self.of_first(words)

    def of_first(self, words):
        """How far the first line of a declaration or a statement is indented."""
        if words[0] == "end":
            return self.of_end(words[1])
        if words[0] == "else" and self.open:
            return self.open[-1].indent
        if words[0] == "when" and self.top("arm"):
            return self.open[-1].indent
        if words[0] == "case" and self.top("field"):
            return self.open[-1].indent
        return self.inner()

    def of_end(self, word):
        kinds = [it.kind for it in self.open]
        wanted = {"case": "case", "module": "module"}.get(word, "")
        if not wanted and self.top("arm"):
            wanted = "case"
        if not wanted and self.top("field"):
            wanted = "declaration"
        for number in range(len(kinds) - 1, -1, -1):
            if not wanted or kinds[number] == wanted:
                return self.open[number].indent
        return 0


def indents(text, lines=None):
    """How far each line of a text should be indented, given how far those before it are; nothing for a line that
    begins within a docstring, and 0 for one without tokens. With `lines` only those are looked at, by number."""
    layout, tokens, found = Layout(), reading.cut(text), {}
    source, next_token = text.split("\n"), 0
    inside = docstring_lines(text)
    for number, line in enumerate(source, 1):
        first = next_token
        while next_token < len(tokens) and tokens[next_token].at[0] == number:
            next_token += 1
        here = tokens[first:next_token]
        if lines is None or number in lines:
            found[number] = None if number in inside else layout.of_line(here)
            indent = found[number] if lines is None else len(line) - len(line.lstrip())
        else:
            indent = len(line) - len(line.lstrip())
        for token in here:
            layout.after_else(token.text)
            layout.take(token, indent or 0)
    return found


def docstring_lines(text):
    """The lines that begin within a docstring."""
    lines, line = set(), 1
    for piece in reading.PIECE.finditer(text):
        if piece[0].startswith('"""'):
            line = text.count("\n", 0, piece.start()) + 1
            lines |= set(range(line + 1, line + 1 + piece[0].count("\n")))
    return lines


def laid_out(text):
    """A text with each of its lines indented as it should be."""
    found = indents(text)
    return "\n".join(line if found[number] is None else " " * found[number] * bool(line.strip()) + line.lstrip()
        for number, line in enumerate(text.split("\n"), 1))
