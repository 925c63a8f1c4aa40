// Asks the server through the extension for VS Code, with a stub of the editor's interface, and prints a line for each
// answer. The stub keeps what the extension registers, and has the few classes that it makes.
'use strict'
const fs = require('fs')
const Module = require('module')
const path = require('path')

const folder = process.env.CLIENT_FOLDER
const PATIENCE = 20000
const say = (name, text) => process.stdout.write(`${name}: ${text}\n`)
const listeners = {}
const providers = {}
const commands = {}
const diagnostics = new Map()
const errors = []

class Position { constructor(line, character) { Object.assign(this, { line, character }) } }
class Range { constructor(start, end) { Object.assign(this, { start, end }) } }
class Uri {
    constructor(text) {
        Object.assign(this, { text, scheme: text.split(':')[0], fsPath: decodeURIComponent(text.slice(7)) })
    }
    static parse(text) { return new Uri(text) }
    toString() { return this.text }
}
const keeps = (...names) => class { constructor(...given) { names.forEach((name, at) => { this[name] = given[at] }) } }
class WorkspaceEdit {
    constructor() { this.all = [] }
    replace(uri, range, newText) { this.all.push({ uri, range, newText }) }
}
const event = name => (call, self) => { listeners[name] = call.bind(self); return { dispose() {} } }

class Document {
    constructor(name, languageId) {
        this.uri = new Uri(`file://${encodeURI(path.join(folder, name))}`)
        this.lines = fs.readFileSync(path.join(folder, name), 'utf8').split('\n')
        Object.assign(this, { languageId, version: 1 })
    }
    getText() { return this.lines.join('\n') }
    /** Changes the text as an editor does, and says so. */
    change(range, text) {
        const { start, end } = range
        const before = this.lines[start.line].slice(0, start.character)
        const after = this.lines[end.line].slice(end.character)
        this.lines.splice(start.line, end.line - start.line + 1, ...(before + text + after).split('\n'))
        this.version++
        listeners.change({ document: this, contentChanges: [{ range, text }] })
    }
    apply(edits) {
        for (const it of [...edits].reverse()) this.change(it.range, it.newText)
    }
}

const stub = {
    Position, Range, Uri, WorkspaceEdit,
    Location: keeps('uri', 'range'), Hover: keeps('contents', 'range'), MarkdownString: keeps('value'),
    Diagnostic: keeps('range', 'message', 'severity'), DiagnosticRelatedInformation: keeps('location', 'message'),
    CompletionItem: keeps('label', 'kind'), CodeAction: keeps('title', 'kind'),
    CodeActionKind: { QuickFix: 'quickfix' },
    DocumentSymbol: keeps('name', 'detail', 'kind', 'range', 'selectionRange'), TextEdit: keeps('range', 'newText'),
    DocumentHighlight: keeps('range', 'kind'), CodeLens: keeps('range', 'command'),
    languages: new Proxy({ createDiagnosticCollection: () => ({
        set: (uri, found) => diagnostics.set(uri.toString(), found), dispose() {} }) }, {
        get: (own, name) => own[name] || ((selector, provider) => {
            Object.assign(providers, provider)
            return { dispose() {} }
        }) }),
    workspace: {
        textDocuments: [], workspaceFolders: [{ uri: new Uri(`file://${folder}`) }],
        getConfiguration: () => ({ get: name => (name === 'server' ? process.env.CLIENT_SERVER : undefined) }),
        onDidOpenTextDocument: event('open'), onDidCloseTextDocument: event('close'),
        onDidChangeTextDocument: event('change'), onDidSaveTextDocument: event('save'),
    },
    window: { showErrorMessage: text => errors.push(text), showInformationMessage() {} },
    commands: { registerCommand: (name, call) => { commands[name] = call; return { dispose() {} } } },
}
const load = Module._load
Module._load = (name, ...more) => (name === 'vscode' ? stub : load(name, ...more))
const extension = require('../../editors/vscode/extension.js')

const at = (line, character) => new Position(line - 1, character)
const lines = (first, last) => new Range(at(first, 0), at(last, 0))
const where = found => `${path.basename(found.uri.fsPath)}:${found.range.start.line + 1}`

async function until(test) {
    for (const began = Date.now(); !test() && Date.now() - began < PATIENCE;)
        await new Promise(done => setTimeout(done, 5))
}

async function said(name, document, count) {
    const found = () => diagnostics.get(document.uri.toString()) || []
    await until(() => found().length === count)
    say(name, found().map(it => `${it.range.start.line + 1} ${it.message.replace(/\n/g, ' | ')}`).join('; '))
}

async function gpl(document) {
    const token = { onCancellationRequested() {} }
    say('hover', (await providers.provideHover(document, at(4, 13), token)).contents.value.replace(/\n+/g, ' / '))
    say('definition', where((await providers.provideDefinition(document, at(6, 13), token))[0]))
    const all = { includeDeclaration: true }
    say('references', (await providers.provideReferences(document, at(5, 1), all, token)).length)
    document.change(lines(4, 4), '       FOO\n       ST   @LONGNAME,1\n')
    await said('refused', document, 2)
    document.change(lines(4, 6), '')
    await said('accepted', document, 0)
    const prepared = await providers.prepareRename(document, at(3, 1), token)
    if (prepared.placeholder !== 'COUNT') say('error', JSON.stringify(prepared))
    document.apply((await providers.provideRenameEdits(document, at(3, 1), 'CELL', token)).all)
    say('renamed', document.lines.slice(2, 5).join('|'))
    await providers.provideRenameEdits(document, at(3, 1), 'LOOP', token)
        .catch(error => say('not renamed', error.message))
    document.change(lines(4, 5), 'START st @cell,3 three\n')
    document.apply(await providers.provideDocumentFormattingEdits(document, {}, token))
    say('formatted', document.lines[3])
    const labels = (await providers.provideCompletionItems(document, at(4, 13), token)).map(it => it.label)
    say('completion', labels.sort().join(' '))
    say('symbols', (await providers.provideDocumentSymbols(document, token)).length)
    say('lens', (await providers.provideCodeLenses(document, token))[0].command.title)
    document.change(lines(4, 5), 'START  ST   @CELL, 3\n')
    await said('slip', document, 1)
    const [action] = await providers.provideCodeActions(document, lines(4, 4), {}, token)
    document.apply(action.edit.all)
    say('action', `${action.title}|${document.lines[3]}`)
}

async function assembler(document) {
    say('copied definition', where((await providers.provideDefinition(document, at(3, 16), undefined))[0]))
    const copied = new Document('ADDING.SRC', 'ti99asm')
    listeners.open(copied)
    copied.change(lines(4, 5), '       CLR  R33\n')
    await said('copied refused', copied, 1)
}

async function main() {
    const game = new Document('game.gpl', 'ti99gpl')
    stub.workspace.textDocuments.push(game)
    await extension.activate({ subscriptions: [] })
    await gpl(game)
    listeners.close(game)
    const source = new Document('main.a99', 'ti99asm')
    listeners.open(source)
    await assembler(source)
    await extension.deactivate()
    say('ended', errors.length)
}

main().catch(error => say('error', error.stack)).finally(() => process.exit())
