// Starts the language server of Ceptre, and hands what VS Code asks on to it. No library and no build step: the
// protocol is JSON after a header with its length, and VS Code's own classes take what comes back.
"use strict";
const { spawn } = require("child_process");
const vscode = require("vscode");

const LANGUAGE = { language: "ceptre" };

/** The server as a child, with the requests that wait for its answers. */
class Server {
  constructor(command, listen) {
    this.listen = listen;
    this.waiting = new Map();
    this.received = Buffer.alloc(0);
    this.number = 0;
    this.child = spawn(command, [], { stdio: ["pipe", "pipe", "inherit"] });
    this.child.stdout.on("data", (part) => this.take(part));
    this.child.on("error", () => {
      vscode.window.showErrorMessage(`Ceptre: ${command} cannot be started; set ceptre.server to its path`);
    });
  }

  send(message) {
    const body = Buffer.from(JSON.stringify({ jsonrpc: "2.0", ...message }));
    if (this.child.stdin.writable) {
      this.child.stdin.write(`Content-Length: ${body.length}\r\n\r\n`);
      this.child.stdin.write(body);
    }
  }

  tell(method, params) {
    this.send({ method, params });
  }

  ask(method, params) {
    this.number += 1;
    const id = this.number;
    this.send({ id, method, params });
    return new Promise((resolve, reject) => this.waiting.set(id, { resolve, reject }));
  }

  take(part) {
    this.received = Buffer.concat([this.received, part]);
    for (;;) {
      const end = this.received.indexOf("\r\n\r\n");
      const header = /Content-Length: ([0-9]+)/.exec(this.received.toString("latin1", 0, Math.max(0, end)));
      if (end < 0 || !header || this.received.length < end + 4 + Number(header[1])) {
        return;
      }
      const last = end + 4 + Number(header[1]);
      const message = JSON.parse(this.received.toString("utf8", end + 4, last));
      this.received = this.received.subarray(last);
      this.dispatch(message);
    }
  }

  dispatch(message) {
    if (message.method) {
      this.listen(message.method, message.params || {});
      return;
    }
    const asked = this.waiting.get(message.id);
    this.waiting.delete(message.id);
    if (asked && message.error) {
      asked.reject(new Error(message.error.message));
    } else if (asked) {
      asked.resolve(message.result);
    }
  }
}

const position = (place) => new vscode.Position(place.line, place.character);
const range = (area) => new vscode.Range(position(area.start), position(area.end));
const plain = (place) => ({ line: place.line, character: place.character });
const plainRange = (area) => ({ start: plain(area.start), end: plain(area.end) });
const location = (place) => new vscode.Location(vscode.Uri.parse(place.uri), range(place.range));
const named = (document) => ({ textDocument: { uri: document.uri.toString() } });
const at = (document, place) => ({ ...named(document), position: plain(place) });
const isOurs = (document) => document.languageId === "ceptre" || document.uri.path.endsWith(".log");

function edit(found) {
  const changed = new vscode.WorkspaceEdit();
  for (const [uri, edits] of Object.entries(found.changes)) {
    for (const one of edits) {
      changed.replace(vscode.Uri.parse(uri), range(one.range), one.newText);
    }
  }
  return changed;
}

function diagnostic(found) {
  const shown = new vscode.Diagnostic(range(found.range), found.message, found.severity - 1);
  const link = found.codeDescription;
  shown.code = link ? { value: found.code, target: vscode.Uri.parse(link.href) } : found.code;
  shown.source = found.source;
  shown.tags = found.tags;
  return shown;
}

function symbol(found) {
  const place = range(found.range);
  const shown = new vscode.DocumentSymbol(found.name, found.detail, found.kind - 1, place, range(found.selectionRange));
  shown.children = found.children.map(symbol);
  return shown;
}

function completion(found) {
  const shown = new vscode.CompletionItem(found.label, found.kind - 1);
  shown.detail = found.detail;
  shown.sortText = found.sortText;
  shown.range = range(found.textEdit.range);
  shown.insertText = found.textEdit.newText;
  return shown;
}

function action(found) {
  const kind = found.kind === "quickfix" ? vscode.CodeActionKind.QuickFix : vscode.CodeActionKind.SourceFixAll;
  const shown = new vscode.CodeAction(found.title, kind);
  shown.edit = edit(found.edit);
  shown.diagnostics = found.diagnostics.map(diagnostic);
  shown.isPreferred = Boolean(found.isPreferred);
  return shown;
}

function signature(found) {
  const help = new vscode.SignatureHelp();
  help.signatures = found.signatures.map((one) => {
    const shown = new vscode.SignatureInformation(one.label);
    shown.parameters = one.parameters.map((part) => new vscode.ParameterInformation(part.label));
    return shown;
  });
  help.activeSignature = found.activeSignature;
  help.activeParameter = found.activeParameter;
  return help;
}

/** A provider of one method, which asks the server and turns the answer round. */
function provider(server, name, method, params, shown) {
  return {
    [name]: async (...given) => {
      const found = await server.ask(`textDocument/${method}`, params(...given));
      return found === null || found === undefined ? undefined : shown(found);
    },
  };
}

function register(server, can) {
  const all = (turn) => (found) => found.map(turn);
  const provide = (name, method, params, shown) => provider(server, name, method, params, shown);
  const options = () => ({ options: { tabSize: 2, insertSpaces: true } });
  const language = vscode.languages;
  const hover = (found) => new vscode.Hover(new vscode.MarkdownString(found.contents.value));
  const lens = (found) => new vscode.CodeLens(range(found.range), found.command);
  const folds = (found) => new vscode.FoldingRange(found.startLine, found.endLine);
  const highlight = (found) => new vscode.DocumentHighlight(range(found.range), found.kind - 1);
  const hint = (found) => new vscode.InlayHint(position(found.position), found.label, found.kind);
  const legend = can.semanticTokensProvider.legend;
  const textEdits = all((found) => vscode.TextEdit.replace(range(found.range), found.newText));
  const listed = (found) => new vscode.CompletionList(found.items.map(completion), found.isIncomplete);
  const within = (document, area) => ({ ...named(document), range: plainRange(area), context: { diagnostics: [] } });
  const references = (document, place, context) => ({ ...at(document, place), context });
  const renamed = (document, place, newName) => ({ ...at(document, place), newName });
  const files = [LANGUAGE, { pattern: "**/*.log" }];
  return [
    language.registerHoverProvider(files, provide("provideHover", "hover", at, hover)),
    language.registerDefinitionProvider(files, provide("provideDefinition", "definition", at, location)),
    language.registerReferenceProvider(LANGUAGE, provide("provideReferences", "references", references, all(location))),
    language.registerRenameProvider(LANGUAGE, provide("provideRenameEdits", "rename", renamed, edit)),
    language.registerDocumentHighlightProvider(
      LANGUAGE,
      provide("provideDocumentHighlights", "documentHighlight", at, all(highlight)),
    ),
    language.registerDocumentSymbolProvider(
      LANGUAGE,
      provide("provideDocumentSymbols", "documentSymbol", named, all(symbol)),
    ),
    language.registerFoldingRangeProvider(LANGUAGE, provide("provideFoldingRanges", "foldingRange", named, all(folds))),
    language.registerCompletionItemProvider(
      LANGUAGE,
      provide("provideCompletionItems", "completion", at, listed),
      ...can.completionProvider.triggerCharacters,
    ),
    language.registerSignatureHelpProvider(
      LANGUAGE,
      provide("provideSignatureHelp", "signatureHelp", at, signature),
      ...can.signatureHelpProvider.triggerCharacters,
    ),
    language.registerCodeActionsProvider(LANGUAGE, provide("provideCodeActions", "codeAction", within, all(action))),
    language.registerCodeLensProvider(LANGUAGE, provide("provideCodeLenses", "codeLens", named, all(lens))),
    language.registerInlayHintsProvider(LANGUAGE, provide("provideInlayHints", "inlayHint", within, all(hint))),
    language.registerDocumentFormattingEditProvider(
      LANGUAGE,
      provide(
        "provideDocumentFormattingEdits",
        "formatting",
        (document) => ({ ...named(document), ...options() }),
        textEdits,
      ),
    ),
    language.registerDocumentSemanticTokensProvider(
      LANGUAGE,
      provide(
        "provideDocumentSemanticTokens",
        "semanticTokens/full",
        named,
        (found) => new vscode.SemanticTokens(new Uint32Array(found.data)),
      ),
      new vscode.SemanticTokensLegend(legend.tokenTypes, legend.tokenModifiers),
    ),
  ];
}

function synchronize(server) {
  const open = (document) =>
    server.tell("textDocument/didOpen", {
      textDocument: {
        uri: document.uri.toString(),
        languageId: document.languageId,
        version: document.version,
        text: document.getText(),
      },
    });
  const change = (event) =>
    server.tell("textDocument/didChange", {
      textDocument: { uri: event.document.uri.toString(), version: event.document.version },
      contentChanges: event.contentChanges.map((one) => ({ range: plainRange(one.range), text: one.text })),
    });
  const ours = (tell) => (document) => isOurs(document) && tell(document);
  vscode.workspace.textDocuments.forEach(ours(open));
  return [
    vscode.workspace.onDidOpenTextDocument(ours(open)),
    vscode.workspace.onDidChangeTextDocument((event) => isOurs(event.document) && change(event)),
    vscode.workspace.onDidSaveTextDocument(ours((document) => server.tell("textDocument/didSave", named(document)))),
    vscode.workspace.onDidCloseTextDocument(ours((document) => server.tell("textDocument/didClose", named(document)))),
  ];
}

let running;

async function activate(context) {
  const settings = vscode.workspace.getConfiguration("ceptre");
  const collection = vscode.languages.createDiagnosticCollection("ceptre");
  const listen = (method, params) => {
    if (method === "textDocument/publishDiagnostics") {
      collection.set(vscode.Uri.parse(params.uri), params.diagnostics.map(diagnostic));
    } else if (method === "window/showMessage") {
      vscode.window.showInformationMessage(params.message);
    }
  };
  running = new Server(settings.get("server") || "ceptre-server", listen);
  const folders = (vscode.workspace.workspaceFolders || []).map((one) => ({ uri: one.uri.toString(), name: one.name }));
  const answer = await running.ask("initialize", {
    processId: process.pid,
    rootUri: folders.length ? folders[0].uri : null,
    workspaceFolders: folders,
    capabilities: {},
    initializationOptions: { inlayHints: Boolean(settings.get("inlayHints")) },
  });
  running.tell("initialized", {});
  const player = settings.get("player") || "ceptre-player";
  const play = vscode.commands.registerCommand("ceptre.play", (path) => {
    const terminal = vscode.window.createTerminal("Ceptre");
    terminal.show();
    terminal.sendText(`${player} '${String(path).replaceAll("'", "'\\''")}'`);
  });
  const say = (name, said) => vscode.window.showInformationMessage(`${name}: ${said}`);
  const show = vscode.commands.registerCommand("ceptre.showTranscript", say);
  const registered = register(running, answer.capabilities);
  context.subscriptions.push(collection, play, show, ...registered, ...synchronize(running));
}

async function deactivate() {
  if (running) {
    await running.ask("shutdown", {});
    running.tell("exit", {});
  }
}

module.exports = { activate, deactivate };
