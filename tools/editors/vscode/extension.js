// A client of `vsi lsp` for Visual Studio Code, in which nothing else has to be installed.
'use strict';

const child = require('child_process');
const path = require('path');
const vscode = require('vscode');

const SELECTOR = { language: 'vsi' };

/// The messages in the bytes of a server.
class Frames {
  constructor(take) {
    this.take = take;
    this.bytes = Buffer.alloc(0);
  }

  add(bytes) {
    this.bytes = Buffer.concat([this.bytes, bytes]);
    for (;;) {
      const end = this.bytes.indexOf('\r\n\r\n');
      if (end < 0) {
        return;
      }
      const found = /content-length: *([0-9]+)/i.exec(this.bytes.toString('latin1', 0, end));
      const stop = end + 4 + Number(found ? found[1] : 0);
      if (this.bytes.length < stop) {
        return;
      }
      const body = this.bytes.toString('utf8', end + 4, stop);
      this.bytes = this.bytes.subarray(stop);
      if (found) {
        this.take(JSON.parse(body));
      }
    }
  }
}

/// A server, and the requests that it hasn't answered yet.
class Server {
  constructor(command, words, folder, log, report) {
    this.log = log;
    this.report = report;
    this.waiting = new Map();
    this.number = 0;
    this.process = child.spawn(command, words, { cwd: folder });
    const frames = new Frames((message) => this.take(message));
    this.process.stdout.on('data', (bytes) => frames.add(bytes));
    this.process.stderr.on('data', (bytes) => log.append(bytes.toString()));
    this.process.on('error', (error) => this.lose(`${command}: ${error.message}`));
    this.process.on('exit', (status) => this.lose(`${command} has ended with status ${status}`));
    this.process.stdin.on('error', () => {});
  }

  lose(text) {
    this.log.appendLine(text);
    for (const answer of this.waiting.values()) {
      answer(null);
    }
    this.waiting.clear();
    this.process = null;
  }

  take(message) {
    if (message.method === 'textDocument/publishDiagnostics') {
      this.report(message.params);
    } else if (message.method === 'window/logMessage') {
      this.log.appendLine(message.params.message);
    } else if (this.waiting.has(message.id)) {
      this.waiting.get(message.id)(message);
      this.waiting.delete(message.id);
    }
  }

  write(message) {
    if (this.process) {
      const body = Buffer.from(JSON.stringify({ jsonrpc: '2.0', ...message }));
      this.process.stdin.write(`Content-Length: ${body.length}\r\n\r\n`);
      this.process.stdin.write(body);
    }
  }

  note(method, params) {
    this.write({ method, params });
  }

  /// The answer to a request: an object with `result` or `error`, or null if the server is lost.
  ask(method, params) {
    if (!this.process) {
      return Promise.resolve(null);
    }
    this.number += 1;
    const id = this.number;
    const answer = new Promise((resolve) => this.waiting.set(id, resolve));
    this.write({ id, method, params });
    return answer;
  }
}

function position(place) {
  return new vscode.Position(place.line, place.character);
}

function range(part) {
  return new vscode.Range(position(part.start), position(part.end));
}

function location(place) {
  return new vscode.Location(vscode.Uri.parse(place.uri), range(place.range));
}

function edit(change) {
  return new vscode.TextEdit(range(change.range), change.newText);
}

function diagnostic(found) {
  const severity = found.severity === 2 ? vscode.DiagnosticSeverity.Warning : vscode.DiagnosticSeverity.Error;
  const made = new vscode.Diagnostic(range(found.range), found.message, severity);
  made.source = found.source;
  made.code = found.code;
  made.relatedInformation = (found.relatedInformation || []).map(
    (step) => new vscode.DiagnosticRelatedInformation(location(step.location), step.message));
  return made;
}

function symbol(found) {
  return new vscode.DocumentSymbol(
    found.name, found.detail, vscode.SymbolKind.Variable, range(found.range), range(found.selectionRange));
}

function hint(found) {
  const label = typeof found.label === 'string' ? found.label : found.label.map((part) => part.value).join('');
  return new vscode.InlayHint(position(found.position), label, vscode.InlayHintKind.Type);
}

function item(found) {
  return new vscode.CompletionItem(found.label, found.kind - 1);
}

function fold(found) {
  return new vscode.FoldingRange(found.startLine, found.endLine);
}

function edited(changes) {
  const made = new vscode.WorkspaceEdit();
  for (const [uri, list] of Object.entries(changes || {})) {
    made.set(vscode.Uri.parse(uri), list.map(edit));
  }
  return made;
}

function action(found) {
  const made = new vscode.CodeAction(found.title, vscode.CodeActionKind.QuickFix);
  made.diagnostics = found.diagnostics.map(diagnostic);
  made.edit = edited(found.edit.changes);
  made.isPreferred = found.isPreferred;
  return made;
}

function at(document, place) {
  return { textDocument: { uri: document.uri.toString() }, position: { line: place.line, character: place.character } };
}

/// The providers of what the server answers, each with the name of its registration.
function providers(server) {
  const result = async (method, params) => {
    const answer = await server.ask(method, params);
    return answer && answer.result !== undefined ? answer.result : null;
  };
  const list = async (method, params, make) => ((await result(method, params)) || []).map(make);
  return {
    registerHoverProvider: {
      async provideHover(document, place) {
        const found = await result('textDocument/hover', at(document, place));
        if (!found) {
          return null;
        }
        const text = typeof found.contents === 'string' ? found.contents : found.contents.value;
        // In Markdown a line ends only after two blanks.
        return new vscode.Hover(text.replaceAll('\n', '  \n'), found.range && range(found.range));
      },
    },
    registerInlayHintsProvider: {
      provideInlayHints(document, part) {
        return list('textDocument/inlayHint', { textDocument: { uri: document.uri.toString() }, range: part }, hint);
      },
    },
    registerDefinitionProvider: {
      async provideDefinition(document, place) {
        const found = await result('textDocument/definition', at(document, place));
        return found && location(found);
      },
    },
    registerReferenceProvider: {
      provideReferences(document, place, context) {
        return list('textDocument/references', { ...at(document, place), context }, location);
      },
    },
    registerDocumentHighlightProvider: {
      provideDocumentHighlights(document, place) {
        return list('textDocument/documentHighlight', at(document, place),
          (found) => new vscode.DocumentHighlight(range(found.range)));
      },
    },
    registerDocumentSymbolProvider: {
      provideDocumentSymbols(document) {
        return list('textDocument/documentSymbol', { textDocument: { uri: document.uri.toString() } }, symbol);
      },
    },
    registerDocumentFormattingEditProvider: {
      provideDocumentFormattingEdits(document, options) {
        return list('textDocument/formatting', { textDocument: { uri: document.uri.toString() }, options }, edit);
      },
    },
    registerRenameProvider: {
      async provideRenameEdits(document, place, newName) {
        const answer = await server.ask('textDocument/rename', { ...at(document, place), newName });
        if (!answer || answer.error) {
          throw new Error(answer ? answer.error.message : 'the server is lost');
        }
        return edited(answer.result && answer.result.changes);
      },
    },
    registerCompletionItemProvider: {
      provideCompletionItems(document, place) {
        return list('textDocument/completion', at(document, place), item);
      },
    },
    registerCodeActionsProvider: {
      provideCodeActions(document, part, context) {
        // The server knows the errors of a part by itself.
        const wanted = { diagnostics: [], only: context.only ? [context.only.value] : undefined };
        return list('textDocument/codeAction',
          { textDocument: { uri: document.uri.toString() }, range: part, context: wanted }, action);
      },
    },
    registerFoldingRangeProvider: {
      provideFoldingRanges(document) {
        return list('textDocument/foldingRange', { textDocument: { uri: document.uri.toString() } }, fold);
      },
    },
  };
}

/// Says what happens to the open texts, in its order, once the server is ready.
function follow(server, ready) {
  const say = (document, method, params) => {
    if (document.languageId === 'vsi') {
      ready.then(() => server.note(method, params));
    }
  };
  const named = (document) => ({ textDocument: { uri: document.uri.toString() } });
  const open = (document) => say(document, 'textDocument/didOpen', {
    textDocument: {
      uri: document.uri.toString(), languageId: 'vsi', version: document.version, text: document.getText(),
    },
  });
  vscode.workspace.textDocuments.forEach(open);
  return [
    vscode.workspace.onDidOpenTextDocument(open),
    vscode.workspace.onDidCloseTextDocument((document) => say(document, 'textDocument/didClose', named(document))),
    vscode.workspace.onDidSaveTextDocument((document) => say(document, 'textDocument/didSave', named(document))),
    vscode.workspace.onDidChangeTextDocument((event) => say(event.document, 'textDocument/didChange', {
      textDocument: { uri: event.document.uri.toString(), version: event.document.version },
      contentChanges: event.contentChanges.map((change) => ({ range: change.range, text: change.text })),
    })),
  ];
}

let running = null;

function activate(context) {
  const settings = vscode.workspace.getConfiguration('vsi');
  const command = settings.get('command', 'vsi');
  const words = ['lsp', ...settings.get('arguments', [])];
  const log = vscode.window.createOutputChannel('vsi');
  const errors = vscode.languages.createDiagnosticCollection('vsi');
  const folders = vscode.workspace.workspaceFolders;
  const folder = folders && folders.length > 0 ? folders[0].uri.fsPath : path.resolve('.');
  const server = new Server(command, words, folder, log,
    (told) => errors.set(vscode.Uri.parse(told.uri), told.diagnostics.map(diagnostic)));
  running = server;
  const able = { textDocument: { publishDiagnostics: { relatedInformation: true } } };
  const ready = server.ask('initialize', { processId: process.pid, rootUri: null, capabilities: able })
    .then(() => server.note('initialized', {}));
  context.subscriptions.push(log, errors, ...follow(server, ready));
  for (const [register, provider] of Object.entries(providers(server))) {
    if (vscode.languages[register]) {
      context.subscriptions.push(vscode.languages[register](SELECTOR, provider));
    }
  }
}

async function deactivate() {
  if (running) {
    await running.ask('shutdown');
    running.note('exit');
  }
}

module.exports = { activate, deactivate };
