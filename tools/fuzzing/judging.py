"""What a call of the program may come to, and what it does that it may not."""
import re
import resource
import signal
import subprocess

NAME = rb"[A-Za-z][A-Za-z0-9_]*"
MODULE = NAME + rb"(?:\." + NAME + rb")*"
PLACE = rb"[^ \n]+:[1-9][0-9]*:[1-9][0-9]*"
FORM = (rb"a record|a union|a reference|a write reference|an integer|an assignable place|a linear type|a region|"
        rb"[0-9]+ arguments|other labels|other arms|a value of [A-Z][a-z]+[0-9]*")
REFUSALS = [
    PLACE + rb": (?:byte|syntax|unsafe module|malformed type|empty union|field above its universe|infinite type|"
    rb"orphan instance|bad instance head|method differs)",
    rb"module " + MODULE + rb": (?:given twice|no body)",
    PLACE + rb": no module " + MODULE, PLACE + rb": module " + MODULE + rb" stands later",
    PLACE + rb": (?:name not visible|name twice|not defined|declared again): " + NAME,
    PLACE + rb": differs from " + PLACE + rb": " + NAME, PLACE + rb": instance overlaps " + PLACE,
    PLACE + rb": type: (?:unknown " + NAME + rb"|wanted [^\n]+, found [^\n]+|not fixed " + NAME +
    rb"|no instance [^\n]+ for [^\n]+|not free [^\n]+|wanted (?:" + FORM + rb")|after return|no return)",
    PLACE + rb": linear " + NAME + rb": (?:(?:unused|met again|clash|borrowed), path \[(?:[0-9]+(?:, [0-9]+)*)?\]|"
    rb"consumed in a loop|consumed in a part)",
    rb"entry: " + MODULE + rb":" + NAME]
REFUSAL = re.compile(b"(?:" + b"|".join(REFUSALS) + rb")\n\Z")
LIMIT = re.compile(rb"limit: (file bytes|files|tokens|name bytes|literal digits|text bytes|nesting|type depth|"
                   rb"type nodes|parameters|fields|cases|type parameters|instances|code) [0-9]+ above [0-9]+\n\Z")
EVENT = re.compile(rb"(?:born ([0-9]+) (.+) (" + MODULE + rb")|consumed ([0-9]+)|(opened|used|closed) ([0-9]+))\n\Z")
# The seconds of processor time that a call may take, and the seconds that may pass.
SECONDS, PASSING = 20, 900


def limited():
    resource.setrlimit(resource.RLIMIT_CPU, (SECONDS, SECONDS + 5))
    resource.setrlimit(resource.RLIMIT_CORE, (0, 0))


def call(program, room, words, given):
    """The status, what stands on out and what on err; the status is None where the call doesn't end in time."""
    try:
        done = subprocess.run([program, *words], cwd=room, input=given, capture_output=True, timeout=PASSING,
                              preexec_fn=limited, check=False)
    except subprocess.TimeoutExpired:
        return None, b"", b""
    return None if done.returncode == -signal.SIGXCPU else done.returncode, done.stdout, done.stderr


def checked(status, out, err):
    """What is wrong with an answer of `check`, or nothing."""
    if status == 0:
        return "" if out == b"accepted\n" and not err else "accepts with other bytes"
    if out:
        return "writes on out, and refuses"
    if status == 2:
        return "" if REFUSAL.match(err) else "refuses with a line of no form"
    if status == 8:
        return "" if LIMIT.match(err) else "passes a limit with a line of no form"
    return "doesn't end" if status is None else f"ends with {status}"


def told(status, out, err):
    """What is wrong with an answer of `explain` for what is accepted."""
    return "" if status == 0 and not err else f"explain ends with {status}"


def ran(status, out, err, opaque):
    """What is wrong with an answer of `run --life` for what is accepted, by its events too. `opaque` gives the modules
    of opaque types by their texts."""
    if status is None:
        return "the run doesn't end"
    if status not in (0, 1, 2, 3, 4, 8):
        return f"the run ends with {status}"
    lines = err.splitlines(keepends=True)
    if status in (2, 8):
        if out or len(lines) != 1:
            return "refuses behind something written"
        if status == 2:
            return "" if err.startswith(b"entry: ") and REFUSAL.match(err) else "the run refuses what is accepted"
        return "" if LIMIT.match(err) else "passes a limit with a line of no form"
    if status in (3, 4):
        last = lines.pop() if lines else b""
        if not last.startswith(b"abort: " if status == 3 else b"steps: ") or not last.endswith(b"\n"):
            if status == 4 or not any(line.startswith(b"abort: ") for line in lines):
                return "no line of its end"
    return lived(lines, status in (0, 1), opaque)


def lived(lines, ended, opaque):
    """What is wrong with the events of a run."""
    born, consumed, opened, closed = set(), set(), set(), set()
    for line in lines:
        found = EVENT.match(line)
        if not found:
            if not ended:
                break
            return f"no event: {line!r}"
        identity, of, module, spent, kind, borrow = found.groups()
        if identity is not None:
            if int(identity) != len(born):
                return f"LIFE: born out of order: {line!r}"
            born.add(identity)
            home = opaque.get(of.split(b"[")[0])
            if home and home != module:
                return f"LIFE: born in another module: {line!r}"
        elif spent is not None:
            if spent not in born or spent in consumed:
                return f"LIFE: consumed twice or before its birth: {line!r}"
            consumed.add(spent)
        elif kind == b"opened":
            if int(borrow) != len(opened):
                return f"LIFE: opened out of order: {line!r}"
            opened.add(borrow)
        elif borrow not in opened or borrow in closed:
            return f"LIFE: {kind.decode()} outside of its borrow: {line!r}"
        elif kind == b"closed":
            closed.add(borrow)
    if ended and born != consumed:
        return f"LIFE: not consumed: {sorted(born - consumed)}"
    if ended and opened != closed:
        return f"LIFE: not closed: {sorted(opened - closed)}"
    return ""


def opaque_types(files):
    """The modules of the opaque types of these files and of the shipped ones, by the types' texts."""
    found = {b"Austral.Pervasive:RootCapability": b"Austral.Pervasive", b"Standard.Box:Box": b"Standard.Box",
             b"Standard.Buffer:Buffer": b"Standard.Buffer", b"Standard.IO.Terminal:Terminal": b"Standard.IO.Terminal"}
    for _, content in files:
        content = re.sub(rb"--[^\n]*", b"", content)
        head = re.search(rb"\bmodule\s+(" + MODULE + rb")\s+is\b", content)
        if head and head.group(1) != b"body":
            for name in re.findall(rb"\btype\s+(" + NAME + rb")", content):
                found[head.group(1) + b":" + name] = head.group(1)
    return found
