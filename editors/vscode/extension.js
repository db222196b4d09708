// The client of the language server in ../server for Visual Studio Code: it begins the server, hands files on, and
// shows what comes back. No library is needed.
"use strict";
const { spawn } = require("child_process");
const fs = require("fs");
const path = require("path");
const vscode = require("vscode");

const LANGUAGE = "austral";
const SERVER = path.join(fs.realpathSync(__dirname), "..", "server", "austral_server.py");

// A session of the server: requests that wait for their answers, and what is done with what it tells.
class Session {
  constructor(python, tells) {
    this.waiting = new Map();
    this.number = 0;
    this.tells = tells;
    this.received = Buffer.alloc(0);
    this.process = spawn(python, [SERVER], { stdio: ["pipe", "pipe", "inherit"] });
    this.process.on("error", (fault) =>
      vscode.window.showErrorMessage(`Austral: ${python} can't be run: ${fault.message}`));
    this.process.stdin.on("error", () => {});
    this.process.stdout.on("data", (data) => this.receive(data));
  }

  receive(data) {
    this.received = Buffer.concat([this.received, data]);
    for (;;) {
      const end = this.received.indexOf("\r\n\r\n");
      if (end < 0) return;
      const size = Number(/Content-Length: (\d+)/i.exec(this.received.toString("ascii", 0, end))[1]);
      if (this.received.length < end + 4 + size) return;
      const message = JSON.parse(this.received.toString("utf8", end + 4, end + 4 + size));
      this.received = this.received.subarray(end + 4 + size);
      this.handle(message);
    }
  }

  handle(message) {
    if (message.method) {
      this.tells(message.method, message.params);
      return;
    }
    const answer = this.waiting.get(message.id);
    this.waiting.delete(message.id);
    if (answer) answer(message.result || null);
  }

  send(message) {
    const body = Buffer.from(JSON.stringify({ jsonrpc: "2.0", ...message }));
    this.process.stdin.write(`Content-Length: ${body.length}\r\n\r\n`);
    this.process.stdin.write(body);
  }

  tell(method, params) {
    this.send({ method, params });
  }

  ask(method, params) {
    const id = ++this.number;
    return new Promise((answer) => {
      this.waiting.set(id, answer);
      this.send({ id, method, params });
    });
  }
}

const rangeOf = (range) =>
  new vscode.Range(range.start.line, range.start.character, range.end.line, range.end.character);

// A refusal as it is shown.
function diagnosticOf(shown) {
  const found = new vscode.Diagnostic(rangeOf(shown.range), shown.message, vscode.DiagnosticSeverity.Error);
  found.source = shown.source;
  found.relatedInformation = (shown.relatedInformation || []).map((it) =>
    new vscode.DiagnosticRelatedInformation(
      new vscode.Location(vscode.Uri.parse(it.location.uri), rangeOf(it.location.range)), it.message));
  return found;
}

// What the server tells by itself.
function tellsBy(refusals) {
  return (method, params) => {
    if (method === "textDocument/publishDiagnostics") {
      refusals.set(vscode.Uri.parse(params.uri), params.diagnostics.map(diagnosticOf));
    } else if (method === "window/showMessage") {
      vscode.window.showWarningMessage(`Austral: ${params.message}`);
    }
  };
}

const textOf = (document) => ({ uri: document.uri.toString() });
const at = (document, position) => ({
  textDocument: textOf(document),
  position: { line: position.line, character: position.character },
});

// Hands open files and their changes on.
function follow(session) {
  const ours = (does) => (document) => {
    if (document.languageId === LANGUAGE && document.uri.scheme === "file") does(document);
  };
  const opened = ours((document) => session.tell("textDocument/didOpen", {
    textDocument: { ...textOf(document), languageId: LANGUAGE, version: document.version, text: document.getText() },
  }));
  const changed = ours((document) => session.tell("textDocument/didChange", {
    textDocument: { ...textOf(document), version: document.version },
    contentChanges: [{ text: document.getText() }],
  }));
  vscode.workspace.textDocuments.forEach(opened);
  return [
    vscode.workspace.onDidOpenTextDocument(opened),
    vscode.workspace.onDidChangeTextDocument((event) => changed(event.document)),
    vscode.workspace.onDidSaveTextDocument(
      ours((document) => session.tell("textDocument/didSave", { textDocument: textOf(document) }))),
    vscode.workspace.onDidCloseTextDocument(
      ours((document) => session.tell("textDocument/didClose", { textDocument: textOf(document) }))),
  ];
}

// Asks the server where the editor asks.
function provide(session) {
  const hover = async (document, position) => {
    const found = await session.ask("textDocument/hover", at(document, position));
    return found && new vscode.Hover(new vscode.MarkdownString(found.contents.value));
  };
  const definition = async (document, position) => {
    const found = await session.ask("textDocument/definition", at(document, position));
    return found && new vscode.Location(vscode.Uri.parse(found.uri), rangeOf(found.range));
  };
  const typed = async (document, position, ch) => {
    const found = await session.ask("textDocument/onTypeFormatting", { ...at(document, position), ch, options: {} });
    return (found || []).map((it) => vscode.TextEdit.replace(rangeOf(it.range), it.newText));
  };
  const whole = async (document) => {
    const found = await session.ask("textDocument/formatting", { textDocument: textOf(document), options: {} });
    return (found || []).map((it) => vscode.TextEdit.replace(rangeOf(it.range), it.newText));
  };
  return [
    vscode.languages.registerDocumentFormattingEditProvider(LANGUAGE, { provideDocumentFormattingEdits: whole }),
    vscode.languages.registerHoverProvider(LANGUAGE, { provideHover: hover }),
    vscode.languages.registerDefinitionProvider(LANGUAGE, { provideDefinition: definition }),
    vscode.languages.registerOnTypeFormattingEditProvider(
      LANGUAGE, { provideOnTypeFormattingEdits: typed }, "\n", "d", "e", "n"),
  ];
}

let session = null;

async function activate(context) {
  const settings = vscode.workspace.getConfiguration(LANGUAGE);
  const refusals = vscode.languages.createDiagnosticCollection(LANGUAGE);
  session = new Session(settings.get("python") || "python3", tellsBy(refusals));
  await session.ask("initialize", {
    processId: process.pid,
    rootUri: null,
    capabilities: {},
    initializationOptions: { program: settings.get("program") || undefined },
  });
  session.tell("initialized", {});
  context.subscriptions.push(refusals, ...follow(session), ...provide(session));
}

async function deactivate() {
  if (!session) return;
  await session.ask("shutdown", {});
  session.tell("exit", {});
}

module.exports = { activate, deactivate };
