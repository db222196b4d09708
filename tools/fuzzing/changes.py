"""Seeds and mutants: programs of the cases and examples of this clone, and ways to change them.

A program is a list of files (a name and its bytes), the words of its parts, and an input."""
import glob
import os
import re

TOKEN = re.compile(rb'"""|"(?:[^"\\\n]|\\.)*"|--[^\n]*|[A-Za-z][A-Za-z0-9_]*|[0-9]+|&!|&~|&|:=|->|=>|<=|>=|/=|\s+|.', re.S)
NAME = re.compile(rb"[A-Za-z][A-Za-z0-9_]*\Z")
DECLARATION = re.compile(
    rb"^(?:generic[^\n]*?\] *)?(?:function|record|union|constant|instance|typeclass)\b.*?"
    rb"(?=^(?:generic|function|record|union|constant|instance|typeclass|end module)\b|\Z)", re.M | re.S)
WORDS = [b"&", b"&!", b"&~", b"!", b"(", b")", b"[", b"]", b"{", b"}", b",", b";", b":", b":=", b"->", b"=>", b".", b"+",
         b"-", b"*", b"/", b"=", b"/=", b"<", b"<=", b">", b">=", b"and", b"or", b"not", b"if", b"then", b"else", b"end",
         b"case", b"of", b"when", b"do", b"while", b"for", b"from", b"to", b"borrow", b"borrow!", b"as", b"in", b"let",
         b"var", b"return", b"skip", b"function", b"generic", b"record", b"union", b"Linear", b"Free", b"Type",
         b"Region", b"true", b"false", b"nil", b"0", b"1", b"255", b"256", b"18446744073709551615", b"Nat8", b"Nat64",
         b"Int8", b"Index", b"Bool", b"Unit", b"Static", b"Option", b"Some", b"None", b"swap", b"import", b"module",
         b"body", b"is", b"typeclass", b"instance", b"method", b"constant", b"pragma", b"Unsafe_Module", b'"text"']


def seeds(top):
    """All programs of the cases and examples, those without a file or with large ones left out."""
    found = []
    for path in sorted(glob.glob(f"{top}/crates/austral_cases/data/*.cases")):
        for case in open(path, "rb").read().split(b"\ncase: ")[1:]:
            files, words, given, part = [], [], b"", None
            for line in case.split(b"\n")[1:]:
                if line[:1] in (b"|", b"\\"):
                    if part == "file" and files:
                        files[-1][1] += line[1:] + (b"\n" if line[:1] == b"|" else b"")
                    elif part == "in":
                        given += line[1:] + (b"\n" if line[:1] == b"|" else b"")
                elif line and line[:1] != b"#":
                    head, _, value = line.partition(b": ")
                    part = {b"file": "file", b"in:": "in"}.get(head)
                    if head == b"file":
                        files.append([value.decode("utf-8", "replace"), b""])
                    elif head == b"words":
                        words = value.decode("utf-8", "replace").split(" ")
            add(found, files, words, given)
    for path in sorted(glob.glob(f"{top}/examples/**/words", recursive=True)):
        room = os.path.dirname(path)
        words = open(path).read().split()
        given = open(f"{room}/in", "rb").read() if os.path.exists(f"{room}/in") else b""
        files = [[name, open(f"{room}/{name}", "rb").read()] for word in words for name in word.split(",")
                 if name.endswith((".aum", ".aui")) and os.path.exists(f"{room}/{name}")]
        add(found, files, words, given)
    return found


def add(found, files, words, given):
    names = [name for name, _ in files]
    parts = [word for word in words if word and set(word.split(",")) <= set(names)]
    if (parts and sum(len(content) for _, content in files) < 20000
            and all(re.fullmatch(r"[A-Za-z0-9_.]+", name) for name in names)):
        found.append(([(name, content) for name, content in files], parts, given))


def mutant(random, program, programs, times):
    """A program with so many changes in its files."""
    files, parts, given = program
    files = [list(file) for file in files]
    for _ in range(times):
        if not files:
            break
        file = random.choice(files)
        other = random.choice(programs)[0]
        other = random.choice(other)[1] if other else b""
        file[1] = random.choice(WAYS)(random, file[1], other)[:60000]
    if random.random() < 0.03:
        given = bytes(random.randrange(256) for _ in range(random.randrange(20)))
    if random.random() < 0.02:
        random.shuffle(parts := list(parts))
    return [(name, content) for name, content in files], parts, given


def spot(random, items):
    return random.randrange(len(items)) if items else 0


def of_bytes(random, text, other):
    """Bytes deleted, put in, exchanged, doubled or cut off."""
    at = spot(random, text)
    way = random.randrange(6)
    if way == 0:
        return text[:at] + text[at + random.randrange(1, 4):]
    if way == 1:
        return text[:at] + bytes([random.choice(b' \n\t"\\\'()[]{};:,.&!~-<>=/*+#_0aZ\x00\x7f\x80\xff')]) + text[at:]
    if way == 2:
        return text[:at] + bytes([random.randrange(256)]) + text[at + 1:]
    if way == 3:
        return text[:at] + text[at:at + 40] * random.randrange(1, 30) + text[at:]
    if way == 4:
        return text[:at]
    end = min(len(text), at + random.randrange(200))
    return text[:at] + other[at:at + 100] + text[end:]


def tokens_of(text):
    return TOKEN.findall(text)


def solid(tokens):
    return [i for i, token in enumerate(tokens) if not token.isspace()]


def of_tokens(random, text, other):
    """Tokens deleted, doubled, exchanged with others, or put in."""
    tokens = tokens_of(text)
    places = solid(tokens)
    if not places:
        return text
    at = random.choice(places)
    way = random.randrange(6)
    if way == 0:
        tokens[at] = b" "
    elif way == 1:
        tokens[at] += b" " + tokens[at]
    elif way == 2:
        second = random.choice(places)
        tokens[at], tokens[second] = tokens[second], tokens[at]
    elif way == 3:
        tokens[at] = b" " + random.choice(WORDS) + b" "
    elif way == 4:
        tokens[at] = b" " + random.choice(tokens_of(other) or [b" "]) + b" " + tokens[at]
    else:
        tokens[at] = random.choice(WORDS) + b" " + tokens[at]
    return b"".join(tokens)


def of_names(random, text, other):
    """A name exchanged with another of the same file, at one place or at all."""
    tokens = tokens_of(text)
    places = [i for i, token in enumerate(tokens) if NAME.match(token)]
    if len(places) < 2:
        return text
    at, second = random.choice(places), random.choice(places)
    new, old = tokens[second], tokens[at]
    if random.random() < 0.6:
        tokens[at] = new
    else:
        begin = 0 if random.random() < 0.5 else at
        tokens[begin:] = [new if token == old else token for token in tokens[begin:]]
    return b"".join(tokens)


def of_signs(random, text, other):
    """A borrow sign, a reading or a kind of borrow exchanged with another, put in or left out."""
    tokens = tokens_of(text)
    signs = [b"&", b"&!", b"&~", b"!", b"->", b"."]
    places = [i for i, token in enumerate(tokens) if token in signs or token == b"borrow" or NAME.match(token)]
    if not places:
        return text
    at = random.choice(places)
    if tokens[at] == b"borrow":
        tokens[at] = b"borrow!" if tokens[at + 1:at + 2] != [b"!"] else b"borrow"
    elif tokens[at] in signs:
        tokens[at] = random.choice(signs + [b""])
    else:
        tokens[at] = random.choice([b"&", b"&!", b"&~", b"!"]) + tokens[at]
    return b"".join(tokens)


def of_lines(random, text, other):
    """Lines deleted, doubled, moved, exchanged, or taken from another program."""
    lines = text.split(b"\n")
    at, second = spot(random, lines), spot(random, lines)
    way = random.randrange(6)
    if way == 0:
        del lines[at]
    elif way == 1:
        lines.insert(second, lines[at])
    elif way == 2:
        lines.insert(second, lines.pop(at)) if lines else None
    elif way == 3:
        lines[at], lines[second] = lines[second], lines[at]
    elif way == 4:
        lines.insert(at, random.choice(other.split(b"\n")))
    else:
        begin, end = min(at, second), max(at, second) + 1
        begin = max(begin, end - 6)
        lines[second:second] = lines[begin:end]
    return b"\n".join(lines)


def of_statements(random, text, other):
    """Some lines put into a statement, or a statement doubled within one."""
    lines = text.split(b"\n")
    at = spot(random, lines)
    end = min(len(lines), at + random.randrange(1, 4))
    names = [token for token in tokens_of(text) if NAME.match(token)] or [b"x"]
    name = random.choice(names)
    around = random.choice([
        (b"if true then", b"end if;"), (b"if false then", b"else skip; end if;"), (b"while false do", b"end while;"),
        (b"for i9 from 1 to 2 do", b"end for;"), (b"borrow " + name + b" as r9 in R9 do", b"end borrow;"),
        (b"borrow! " + name + b" as r9 in R9 do", b"end borrow;"), (b"case " + name + b" of", b"end case;"),
        (b"let z9: Nat8 := 1;", b""), (b"return nil;", b"")])
    lines[at:end] = [around[0]] + lines[at:end] + [around[1]]
    return b"\n".join(lines)


def of_declarations(random, text, other):
    """A declaration left out, doubled, moved, or taken from another program."""
    found, given = DECLARATION.findall(text), DECLARATION.findall(other)
    way = random.randrange(3)
    if way == 0 and found:
        return text.replace(random.choice(found), b"", 1)
    if way == 1 and len(found) > 1:
        one, two = random.sample(found, 2)
        return text.replace(one, b"\0", 1).replace(two, one, 1).replace(b"\0", two, 1)
    if given:
        end = text.rfind(b"end module")
        return text[:end] + random.choice(given) + text[end:]
    return text


def of_imports(random, text, other):
    """An imported name under another one, there alone or in the whole file."""
    found = re.search(rb"import [^(]*\(([^)]*)\)", text)
    if not found:
        return text
    items = [item.strip() for item in found.group(1).split(b",")]
    at = spot(random, items)
    name = items[at].split(b" ")[0]
    new = random.choice([b"q9", b"Q9"] + [item.split(b" ")[0] for item in items])
    items[at] = name + b" as " + new
    head, tail = text[:found.end()], text[found.end():]
    if random.random() < 0.7:
        tail = re.sub(rb"\b" + re.escape(name) + rb"\b", new, tail)
    return head[:found.start(1)] + b", ".join(items) + b")" + tail


WAYS = [of_bytes, of_tokens, of_tokens, of_names, of_names, of_names, of_signs, of_signs, of_lines, of_lines,
        of_statements, of_declarations, of_imports]
