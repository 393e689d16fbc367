// The extension for VS Code against classes that stand in for the editor's own: opens a broken world with the real
// server, waits for what is wrong, and asks for the mend. Called with the extension, the server and a world.
"use strict";
const Module = require("module");
const fs = require("fs");
const [extension, server, path] = process.argv.slice(2);

class Record {
  constructor(...values) {
    this.values = values;
  }
}
const subclass = () => class extends Record {};
const providers = {};
const languages = new Proxy(
  {
    createDiagnosticCollection: () => ({ set: (_uri, found) => seen(found) }),
  },
  { get: (own, name) => own[name] || ((_selector, given) => Object.assign(providers, given)) },
);
const uri = { toString: () => `file://${path}`, path };
const document = { uri, languageId: "ceptre", version: 1, getText: () => fs.readFileSync(path, "utf8") };
const listener = () => ({});
const classes = ["Diagnostic", "WorkspaceEdit", "CodeAction", "Hover", "MarkdownString", "Location", "TextEdit"];
class Position {
  constructor(line, character) {
    Object.assign(this, { line, character });
  }
}
class Range {
  constructor(start, end) {
    Object.assign(this, { start, end });
  }
}
const vscode = {
  ...Object.fromEntries(classes.map((name) => [name, subclass()])),
  Position,
  Range,
  SemanticTokensLegend: subclass(),
  Uri: { parse: (text) => text },
  CodeActionKind: { QuickFix: "quickfix", SourceFixAll: "source.fixAll" },
  languages,
  commands: { registerCommand: listener },
  window: { showErrorMessage: console.error, showInformationMessage: console.error },
  workspace: {
    getConfiguration: () => ({ get: (name) => (name === "server" ? server : undefined) }),
    textDocuments: [document],
    workspaceFolders: [],
    onDidOpenTextDocument: listener,
    onDidChangeTextDocument: listener,
    onDidSaveTextDocument: listener,
    onDidCloseTextDocument: listener,
  },
};
vscode.WorkspaceEdit.prototype.replace = function replace(_uri, area, text) {
  this.edit = `${area.start.line + 1}:${area.start.character + 1} ${text}`;
};
const load = Module._load;
Module._load = (name, ...rest) => (name === "vscode" ? vscode : load(name, ...rest));
const { activate, deactivate } = require(extension);

async function seen(found) {
  const message = found.length ? found[0].values[1] : "";
  if (!message.includes("likely")) {
    return;
  }
  const area = found[0].values[0];
  console.log(message.split("\n")[0]);
  const actions = await providers.provideCodeActions(document, area);
  console.log(actions[0].values[0], "|", actions[0].edit.edit);
  const hover = await providers.provideHover(document, { line: 4, character: 1 });
  console.log(hover.values[0].values[0].split("\n")[1]);
  await deactivate();
}

activate({ subscriptions: [] });
