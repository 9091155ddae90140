// Loads the extension for Visual Studio Code with a mock of the editor, opens and changes a text, and prints what
// the extension shows, as a line of JSON. The arguments are the program and the folder of the text.
'use strict';

const fs = require('fs');
const Module = require('module');
const path = require('path');

const [program, folder] = process.argv.slice(2);
const acts = {};
const shown = { errors: null, versions: 0 };
const made = (...names) => class {
  constructor(...values) {
    names.forEach((name, i) => { this[name] = values[i]; });
  }
};
const on = (name) => (act) => { acts[name] = act; return { dispose() {} }; };
const registered = {};
const edits = [];
const uri = { toString: () => `file://${folder}/typed.vsi`, fsPath: path.join(folder, 'typed.vsi') };
const text = { languageId: 'vsi', uri, version: 1, content: 'var h : H; var l : L;\nletvar t := h in l := t\n' };
text.getText = () => text.content;
const vscode = {
  Position: made('line', 'character'),
  Range: made('start', 'end'),
  Location: made('uri', 'range'),
  TextEdit: made('range', 'newText'),
  Diagnostic: made('range', 'message', 'severity'),
  DiagnosticRelatedInformation: made('location', 'message'),
  DocumentSymbol: made('name', 'detail', 'kind', 'range', 'selectionRange'),
  DocumentHighlight: made('range'),
  InlayHint: made('position', 'label', 'kind'),
  Hover: made('contents', 'range'),
  CompletionItem: made('label', 'kind'),
  FoldingRange: made('start', 'end'),
  CodeAction: made('title', 'kind'),
  CodeActionKind: { QuickFix: 'quickfix' },
  WorkspaceEdit: class { set(place, changes) { edits.push(...changes); } },
  DiagnosticSeverity: { Error: 0, Warning: 1 },
  SymbolKind: { Variable: 12 },
  InlayHintKind: { Type: 1 },
  Uri: { parse: (name) => ({ toString: () => name }) },
  workspace: {
    textDocuments: [text],
    workspaceFolders: [{ uri: { fsPath: folder } }],
    getConfiguration: () => ({ get: (name, other) => (name === 'command' ? program : other) }),
    onDidOpenTextDocument: on('open'),
    onDidCloseTextDocument: on('close'),
    onDidSaveTextDocument: on('save'),
    onDidChangeTextDocument: on('change'),
  },
  window: { createOutputChannel: () => ({ append() {}, appendLine() {} }) },
  languages: new Proxy({
    createDiagnosticCollection: () => ({ set(place, errors) { shown.errors = errors; shown.versions += 1; } }),
  }, { get: (own, name) => own[name] || ((selector, provider) => { registered[name] = provider; return {}; }) }),
};
const load = Module._load;
Module._load = (name, ...rest) => (name === 'vscode' ? vscode : load(name, ...rest));
const extension = require(path.join(__dirname, '..', 'vscode', 'extension.js'));

async function settled(count) {
  for (let i = 0; shown.versions < count; i += 1) {
    if (i > 4000) {
      throw new Error('no errors were shown');
    }
    await new Promise((resolve) => setTimeout(resolve, 5));
  }
  return shown.errors;
}

async function main() {
  const results = {};
  extension.activate({ subscriptions: [] });
  results.refused = await settled(1);
  const whole = new vscode.Range(new vscode.Position(1, 0), new vscode.Position(1, 22));
  results.fixes = (await registered.registerCodeActionsProvider.provideCodeActions(
    text, whole, { diagnostics: results.refused })).map((found) => found.title);
  results.fixed = edits.splice(0);
  results.items = (await registered.registerCompletionItemProvider.provideCompletionItems(
    text, new vscode.Position(1, 18))).map((found) => [found.label, found.kind]);
  results.folds = await registered.registerFoldingRangeProvider.provideFoldingRanges(text);
  text.version = 2;
  text.content = text.content.replace('l := t', 'h := t');
  const part = new vscode.Range(new vscode.Position(1, 17), new vscode.Position(1, 18));
  acts.change({ document: text, contentChanges: [{ range: part, text: 'h' }] });
  results.accepted = await settled(2);
  const place = new vscode.Position(1, 7);
  results.hover = await registered.registerHoverProvider.provideHover(text, place);
  results.hints = await registered.registerInlayHintsProvider.provideInlayHints(text, part);
  results.symbols = await registered.registerDocumentSymbolProvider.provideDocumentSymbols(text);
  await registered.registerRenameProvider.provideRenameEdits(text, place, 'u');
  results.renamed = edits;
  try {
    await registered.registerRenameProvider.provideRenameEdits(text, place, 'h');
  } catch (error) {
    results.unnamed = error.message;
  }
  await extension.deactivate();
  fs.writeSync(1, `${JSON.stringify(results)}\n`);
}

main().catch((error) => {
  fs.writeSync(2, `${error.stack}\n`);
  process.exit(1);
});
