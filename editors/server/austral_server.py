#!/usr/bin/env python3
"""A language server for Austral, over the built compiler: it speaks the Language Server Protocol on its standard input
and output, and asks `check`, `explain` and `format` what is so.

- Refusals come as one types: each program that an open file belongs to is checked a moment after the last change.
- Hover shows the life of a variable, what a name means, and on a refusal what docs/REFUSALS.md says of it.
- Definitions are found in the file, in the modules that it imports, and in docs/LANGUAGE.md for shipped ones.
- A file is laid out by `format`, where it can be read; a line is indented anew where one types a newline or the last letter of `end`, `else`, `when` or `case`.

A program is the open file, the other part of its module, and the modules that it imports, from the files of the
language in its folder and in the client's, one folder deeper and one higher. Which compiler is called: the client's
option `program`, the variable AUSTRAL_PROGRAM, the one that this clone has built, or `austral` on the path."""
import dataclasses
import json
import os
import queue
import subprocess
import sys
import threading
import urllib.parse

sys.dont_write_bytecode = True

import austral_hints as hints  # noqa: E402
import austral_layout as layout  # noqa: E402
import austral_paths as paths  # noqa: E402
import austral_program as programs  # noqa: E402
import austral_reading as reading  # noqa: E402
import austral_refusals as refusals  # noqa: E402
from austral_sources import Sources  # noqa: E402

PAUSE = 0.15
CAPABILITIES = {
    "textDocumentSync": {"openClose": True, "change": 1, "save": True},
    "hoverProvider": True,
    "definitionProvider": True,
    "documentFormattingProvider": True,
    "documentOnTypeFormattingProvider": {"firstTriggerCharacter": "\n", "moreTriggerCharacter": ["d", "e", "n"]},
}


def path_of(uri):
    return urllib.parse.unquote(urllib.parse.urlparse(uri).path)


def uri_of(path):
    return "file://" + urllib.parse.quote(os.path.abspath(path))


def line_of(text, number):
    lines = text.split("\n")
    return lines[number - 1] if 0 < number <= len(lines) else ""


def position(text, at):
    """A place of the compiler as one of the protocol: lines from 0, and UTF-16 units instead of bytes."""
    before = reading.printed(line_of(text, at[0])[: at[1] - 1])
    return {"line": at[0] - 1, "character": len(before.encode("utf-16-le")) // 2}


def place(text, where):
    """The other way round."""
    line = reading.printed(line_of(text, where["line"] + 1)).encode("utf-16-le")
    before = line[: 2 * where["character"]].decode("utf-16-le", "ignore")
    return where["line"] + 1, len(before.encode()) + 1


def range_of(text, begin, end):
    return {"start": position(text, begin), "end": position(text, end)}


@dataclasses.dataclass
class Fault:
    """A refusal that is shown: the file, where it stands there, and the refusal."""

    path: str
    begin: tuple
    end: tuple
    refusal: refusals.Refusal


class Server:
    """The state of a session: the texts of open files, and what was found last."""

    def __init__(self, source, sink):
        self.source, self.sink, self.messages = source, sink, queue.Queue()
        self.texts, self.faults, self.accepted = {}, [], {}
        self.shown, self.program, self.stale, self.status = set(), None, False, None
        self.readable = {}

    # The protocol

    def read(self):
        """Puts messages in a row, and nothing behind the last."""
        while True:
            size = None
            while True:
                head = self.source.readline()
                if not head.strip():
                    break
                name, _, value = head.decode().partition(":")
                size = int(value) if name.lower() == "content-length" else size
            if not head or size is None:
                self.messages.put(None)
                return
            self.messages.put(json.loads(self.source.read(size)))

    def send(self, **message):
        body = json.dumps({"jsonrpc": "2.0", **message}).encode()
        self.sink.write(b"Content-Length: %d\r\n\r\n%s" % (len(body), body))
        self.sink.flush()

    def run(self):
        """Handles messages until the client ends; checks where none comes for a moment."""
        threading.Thread(target=self.read, daemon=True).start()
        ready = 1
        while self.status is None:
            try:
                message = self.messages.get(timeout=PAUSE if self.stale else None)
            except queue.Empty:
                self.check()
                continue
            if message is None or message.get("method") == "exit":
                return 0 if message and ready == 0 else 1
            ready = 0 if message.get("method") == "shutdown" else ready
            self.handle(message)
        return self.status

    def handle(self, message):
        method, identity = message.get("method"), message.get("id")
        does = METHODS.get(method)
        if identity is None or method is None:
            if does:
                does(self, message.get("params") or {})
        elif not does:
            self.send(id=identity, error={"code": -32601, "message": f"no method {method}"})
        else:
            try:
                self.send(id=identity, result=does(self, message.get("params") or {}))
            except (OSError, subprocess.SubprocessError) as fault:
                self.send(id=identity, error={"code": -32603, "message": str(fault)})

    def initialize(self, params):
        options = params.get("initializationOptions") or {}
        self.program = programs.built_program(options.get("program"))
        return {"capabilities": CAPABILITIES, "serverInfo": {"name": "austral"}}

    def initialized(self, _):
        if not self.program:
            self.send(method="window/showMessage", params={"type": 2, "message":
                "No built compiler is found: build it (README.md), or name one by the option `program` or the "
                "variable AUSTRAL_PROGRAM. Refusals and lives aren't shown."})

    def shutdown(self, _):
        return None

    # Files

    def opened(self, params):
        document = params["textDocument"]
        self.change(path_of(document["uri"]), document["text"])

    def changed(self, params):
        for change in params["contentChanges"][-1:]:
            self.change(path_of(params["textDocument"]["uri"]), change["text"])

    def closed(self, params):
        self.texts.pop(path_of(params["textDocument"]["uri"]), None)
        self.stale = True

    def saved(self, _):
        self.stale = True

    def change(self, path, text):
        self.texts[path] = text.encode().decode("latin-1")
        self.stale, self.accepted = True, {}

    def sources(self, path=None):
        return Sources([*self.texts, *(programs.nearby([path]) if path else ())], self.texts)

    def part(self, sources, path):
        """The part in a file; while it has no tree, the last that it had."""
        part = sources.part(path)
        if part:
            self.readable[path] = part
        elif path in self.readable:
            sources.parts[path] = self.readable[path]
        return part or self.readable.get(path)

    # Refusals

    def check(self):
        """Checks the program of each open file, and shows what is refused."""
        self.stale, self.faults = False, []
        for path in list(self.texts):
            self.part(self.sources(), path)
        for path in list(self.texts) if self.program else ():
            try:
                self.check_file(path)
            except (OSError, subprocess.SubprocessError) as fault:
                self.send(method="window/logMessage", params={"type": 1, "message": str(fault)})
        self.publish()

    def check_file(self, path):
        sources = self.sources()
        files = programs.program_of(path, sources)
        said = programs.asked(self.program, "check", files, sources)
        if said.refusal:
            fault = self.fault(said.refusal, path, sources)
            if not any((it.path, it.begin, it.refusal.text) == (fault.path, fault.begin, fault.refusal.text)
                    for it in self.faults):
                self.faults.append(fault)

    def fault(self, refusal, path, sources):
        """Where a refusal is shown: its token, or of a statement its line; without a place, the file's first line."""
        if not refusal.place:
            text = sources.text(path)
            return Fault(path, (1, 1), (1, len(line_of(text, 1)) + 1), refusal)
        file, at = refusal.place.file, refusal.place.at
        tokens = reading.cut(sources.text(file) or "")
        begin = end = at
        for token in tokens:
            if token.at == at:
                end = token.end
        if ": type: " in refusal.text:
            here = [it for it in tokens if it.at[0] == at[0] and it.at >= at]
            named = [it for it in here if it.text == refusal.values.get("n")]
            begin, end = (named[0].at, named[0].end) if named else (at, here[-1].end if here else at)
        return Fault(file, begin, end if end > begin else (begin[0], begin[1] + 1), refusal)

    def publish(self):
        shows = {it.path for it in self.faults}
        for path in sorted(shows | self.shown | set(self.texts)):
            text = self.sources().text(path) or ""
            found = [self.diagnostic(it, text) for it in self.faults if it.path == path]
            self.send(method="textDocument/publishDiagnostics", params={"uri": uri_of(path), "diagnostics": found})
        self.shown = shows

    def diagnostic(self, fault, text):
        refusal = fault.refusal
        says = refusal.text.split(": ", 1)[1] if refusal.place else refusal.text
        shown = {"range": range_of(text, fault.begin, fault.end), "severity": 1, "source": "austral", "message":
            "\n".join([says, *hints.hints(refusal, self.sources(fault.path))])}
        if refusal.other:
            there = self.sources().text(refusal.other.file) or ""
            other = range_of(there, refusal.other.at, refusal.other.at)
            shown["relatedInformation"] = [{"location": {"uri": uri_of(refusal.other.file), "range": other},
                "message": "the other place"}]
        return shown

    # Hover

    def here(self, params):
        """The file of a request, its sources, the place, and the token there."""
        path = path_of(params["textDocument"]["uri"])
        sources = self.sources(path)
        text = sources.text(path) or ""
        at = place(text, params["position"])
        token = next((it for it in reading.cut(text) if it.at <= at <= it.end and it.kind == "name"), None)
        return path, sources, at, token

    def hover(self, params):
        path, sources, at, token = self.here(params)
        parts = [self.told(it) for it in self.faults if it.path == path and it.begin <= at <= it.end]
        part = self.part(sources, path)
        if token and part:
            parts += self.of_name(sources, part, token)
        if not parts:
            return None
        return {"contents": {"kind": "markdown", "value": "\n\n---\n\n".join(parts)}}

    def told(self, fault):
        """What is said of a refusal: its line, the hints, and the section of docs/REFUSALS.md in short."""
        section = fault.refusal.section
        found = hints.hints(fault.refusal, self.sources(fault.path))
        lines = [f"**{fault.refusal.text.split(': ', 1)[-1]}**", "\n".join(found), *refusals.short_form(section)]
        return "\n\n".join(filter(None, [*lines, f"docs/REFUSALS.md, `{section.head}`"]))

    def of_name(self, sources, part, token):
        """What a name means: a variable, or what is visible here."""
        function = sources.function_at(part, token.at)
        variable = self.variable(function, token)
        if variable:
            return [self.of_variable(sources, part, variable)]
        meanings = sources.visible(part).get(token.text, [])
        return [self.of_meaning(sources, it) for it in meanings[:1]]

    def variable(self, function, token):
        """The scope of the variable that a name is, or nothing."""
        if not function:
            return None
        known = {name.at: span for name, _, span in reading.variables_of(function)}
        for scope in paths.scopes_of(function):
            begin, end = known.get(scope.name.at, (scope.name.at, scope.end))
            if scope.name.text == token.text and begin <= token.at < end:
                return scope
        return None

    def of_variable(self, sources, part, scope):
        name, at = scope.name.text, scope.name.at
        life = next((it for it in self.lives(part) if it.name == name and it.born == at), None)
        lines = [f"```austral\n{name}: {life.type if life else scope.type or '..'}\n```"]
        if life:
            lines += [f"- line {life.born[0]}: born"]
            lines += [f"- line {line}: {kind}" + (f", up to line {to}" if to else "")
                for line, _, kind, to in life.mentions]
        elif sources.universe(part, scope.type) == "Free":
            lines.append(f"Declared at line {at[0]}. Free: it is copied and dropped at will.")
        else:
            lines.append(f"Declared at line {at[0]}. Its life is shown when the program is accepted.")
        return "\n".join(lines)

    def lives(self, part):
        """The lives of the program of a file, where it is accepted."""
        if not self.program or not part.module.is_body:
            return []
        if part.path not in self.accepted:
            sources = self.sources()
            said = programs.asked(self.program, "explain", programs.program_of(part.path, sources), sources)
            self.accepted[part.path] = [] if said.refusal else programs.lives(said.out)
        return [it for it in self.accepted[part.path] if it.module == part.module.name]

    def of_meaning(self, sources, meaning):
        """A declaration as it is written up to its body, and its module."""
        one, lines = meaning.declaration, (sources.text(meaning.part.path) or "").split("\n")
        taken = lines[one.at[0] - 1 : one.head_end[0]]
        taken[-1] = taken[-1][: one.head_end[1] - 1]
        taken[0] = taken[0][one.at[1] - 1 :]
        owner = f" of `{meaning.owner.name.text}`" if meaning.owner else ""
        said = reading.printed("\n".join(it.strip() for it in taken))
        return f"```austral\n{said}\n```\nA {one.kind}{owner} in `{meaning.part.module.name}`"

    # Definitions

    def definition(self, params):
        path, sources, at, token = self.here(params)
        part = self.part(sources, path)
        if not part or not token:
            return None
        for one in part.module.imports:
            if one.at <= at <= one.end:
                there = sources.interface_of(one.module, part)
                return self.location(sources, there.path, there.module.at, len(one.module)) if there else None
        variable = self.variable(sources.function_at(part, token.at), token)
        if variable:
            return self.location(sources, path, variable.name.at, len(token.text))
        found = self.imported_at(sources, part, token) or sources.visible(part).get(token.text, [])
        found = sorted(found, key=lambda it: not it.part.module.is_body)
        other = [it for it in found if (it.part.path, it.declaration.name.at) != (path, token.at)]
        for meaning in other or found:
            name = meaning.declaration.name
            return self.location(sources, meaning.part.path, name.at, len(name.text))
        return None

    def imported_at(self, sources, part, token):
        """What a name in an import is in the other interface."""
        for one in part.module.imports:
            for name, alias in one.items:
                if token.at in (name.at, alias.at):
                    return [it for offered, it in sources.offered(one.module, part) if offered == name.text]
        return []

    def location(self, sources, path, at, size):
        text = sources.text(path) or ""
        return {"uri": uri_of(path), "range": range_of(text, at, (at[0], at[1] + size))}

    # Layout

    def formatting(self, params):
        """The file as `format` writes it, where that is something else and the file can be read."""
        path = path_of(params["textDocument"]["uri"])
        text = self.texts.get(path)
        if text is None or not self.program:
            return []
        said = programs.asked(self.program, "format", [path], self.sources(path))
        if said.refusal or said.out == reading.printed(text):
            return []
        end = text.count("\n") + 1
        whole = range_of(text, (1, 1), (end, len(line_of(text, end)) + 1))
        return [{"range": whole, "newText": said.out}]

    def on_type(self, params):
        """How the line that is typed on is indented."""
        text = self.texts.get(path_of(params["textDocument"]["uri"]), "")
        number = params["position"]["line"] + 1
        line = line_of(text, number)
        words = line.split()
        if params.get("ch") != "\n" and (len(words) != 1 or words[0] not in ("end", "else", "when", "case")):
            return []
        has = len(line) - len(line.lstrip())
        wanted = layout.indents(text, {number})[number]
        if wanted is None or wanted == has:
            return []
        return [{"range": range_of(text, (number, 1), (number, has + 1)), "newText": " " * wanted}]


METHODS = {
    "initialize": Server.initialize,
    "initialized": Server.initialized,
    "shutdown": Server.shutdown,
    "textDocument/didOpen": Server.opened,
    "textDocument/didChange": Server.changed,
    "textDocument/didClose": Server.closed,
    "textDocument/didSave": Server.saved,
    "textDocument/hover": Server.hover,
    "textDocument/definition": Server.definition,
    "textDocument/formatting": Server.formatting,
    "textDocument/onTypeFormatting": Server.on_type,
}

if __name__ == "__main__":
    # The thread that reads may still wait for the client, and isn't waited for.
    os._exit(Server(sys.stdin.buffer, sys.stdout.buffer).run())
