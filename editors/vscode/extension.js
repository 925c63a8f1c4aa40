// Joins the editor with the language server of ti_bench, in the editor's own terms.
'use strict'
const fs = require('fs')
const path = require('path')
const vscode = require('vscode')
const { Connection } = require('./connection')

const LANGUAGES = ['ti99gpl', 'ti99asm']
let session

const isOurs = document => LANGUAGES.includes(document.languageId) && document.uri.scheme === 'file'
const position = it => new vscode.Position(it.line, it.character)
const range = it => new vscode.Range(position(it.start), position(it.end))
const toPosition = it => ({ line: it.line, character: it.character })
const toRange = it => ({ start: toPosition(it.start), end: toPosition(it.end) })
const location = it => new vscode.Location(vscode.Uri.parse(it.uri), range(it.range))
// a text of the server as Markdown, in which no link to a command counts
const markdown = it => new vscode.MarkdownString(it.value)

/** The command that starts the server: the setting, or the tool beside this folder, or the one on the path. */
function command(setting) {
    if (setting) return setting
    const beside = path.join(fs.realpathSync(__dirname), '../../tools/lsp')
    return fs.existsSync(beside) ? beside : 'ti_bench-lsp'
}

function edit(found) {
    const made = new vscode.WorkspaceEdit()
    for (const { textDocument, edits } of found.documentChanges)
        for (const it of edits) made.replace(vscode.Uri.parse(textDocument.uri), range(it.range), it.newText)
    return made
}

function diagnostic(it) {
    const made = new vscode.Diagnostic(range(it.range), it.message, it.severity - 1)
    made.source = it.source
    made.code = it.code
    made.relatedInformation = (it.relatedInformation || []).map(
        other => new vscode.DiagnosticRelatedInformation(location(other.location), other.message))
    return made
}

function completion(it) {
    const made = new vscode.CompletionItem(it.label, it.kind - 1)
    made.detail = it.detail
    made.sortText = it.sortText
    if (it.documentation) made.documentation = markdown(it.documentation)
    return made
}

function action(it) {
    const made = new vscode.CodeAction(it.title, vscode.CodeActionKind.QuickFix)
    made.edit = edit(it.edit)
    return made
}

const symbol = it => new vscode.DocumentSymbol(
    it.name, it.detail, it.kind - 1, range(it.range), range(it.selectionRange))
const textEdit = it => new vscode.TextEdit(range(it.range), it.newText)
const list = (found, made) => (found || []).map(made)

/** A session with the server, and what the editor asks through it. */
class Session {
    constructor(context) {
        const settings = vscode.workspace.getConfiguration('ti_bench')
        const folders = vscode.workspace.workspaceFolders
        this.shown = vscode.languages.createDiagnosticCollection('ti_bench')
        context.subscriptions.push(this.shown)
        this.connection = new Connection(command(settings.get('server')), [],
            folders && folders.length ? folders[0].uri.fsPath : undefined,
            (method, params) => this.heard(method, params),
            why => vscode.window.showErrorMessage(`ti_bench-lsp: ${why}`))
        this.begun = this.begin(context, settings)
    }

    async begin(context, settings) {
        const options = { columns: settings.get('columns'), defines: settings.get('defines') }
        for (const name of Object.keys(options)) if (!options[name]) delete options[name]
        await this.connection.ask('initialize',
            { processId: process.pid, capabilities: {}, initializationOptions: options })
        this.connection.notify('initialized', {})
        for (const document of vscode.workspace.textDocuments) this.open(document)
        const on = (event, call) => context.subscriptions.push(event(call, this))
        on(vscode.workspace.onDidOpenTextDocument, this.open)
        on(vscode.workspace.onDidCloseTextDocument, this.close)
        on(vscode.workspace.onDidChangeTextDocument, this.change)
        on(vscode.workspace.onDidSaveTextDocument, this.save)
        this.register(context)
    }

    heard(method, params) {
        if (method === 'textDocument/publishDiagnostics')
            this.shown.set(vscode.Uri.parse(params.uri), params.diagnostics.map(diagnostic))
        else if (method === 'window/showMessage')
            (params.type === 1 ? vscode.window.showErrorMessage : vscode.window.showInformationMessage)(params.message)
    }

    named(document) {
        return { uri: document.uri.toString() }
    }

    open(document) {
        if (isOurs(document))
            this.connection.notify('textDocument/didOpen', { textDocument: { ...this.named(document),
                languageId: document.languageId, version: document.version, text: document.getText() } })
    }

    close(document) {
        if (isOurs(document)) this.connection.notify('textDocument/didClose', { textDocument: this.named(document) })
    }

    save(document) {
        if (isOurs(document)) this.connection.notify('textDocument/didSave', { textDocument: this.named(document) })
    }

    change({ document, contentChanges }) {
        if (isOurs(document) && contentChanges.length)
            this.connection.notify('textDocument/didChange', {
                textDocument: { ...this.named(document), version: document.version },
                contentChanges: contentChanges.map(it => ({ range: toRange(it.range), text: it.text })) })
    }

    ask(method, document, more, token) {
        return this.connection.ask(`textDocument/${method}`, { textDocument: this.named(document), ...more }, token)
    }

    at(method, document, place, token, more = {}) {
        return this.ask(method, document, { position: toPosition(place), ...more }, token)
    }

    register(context) {
        const languages = vscode.languages
        const selector = LANGUAGES.map(language => ({ language, scheme: 'file' }))
        const add = (call, provider, ...more) =>
            context.subscriptions.push(languages[call](selector, provider, ...more))
        add('registerHoverProvider', { provideHover: async (document, place, token) => {
            const found = await this.at('hover', document, place, token)
            return found && new vscode.Hover(markdown(found.contents), found.range && range(found.range))
        } })
        add('registerDefinitionProvider', { provideDefinition: async (document, place, token) =>
            list(await this.at('definition', document, place, token), location) })
        add('registerReferenceProvider', { provideReferences: async (document, place, context, token) =>
            list(await this.at('references', document, place, token, { context }), location) })
        add('registerDocumentHighlightProvider', { provideDocumentHighlights: async (document, place, token) =>
            list(await this.at('documentHighlight', document, place, token),
                it => new vscode.DocumentHighlight(range(it.range), it.kind - 1)) })
        add('registerDocumentSymbolProvider', { provideDocumentSymbols: async (document, token) =>
            list(await this.ask('documentSymbol', document, {}, token), symbol) })
        add('registerCompletionItemProvider', { provideCompletionItems: async (document, place, token) =>
            list(await this.at('completion', document, place, token), completion) }, '@', ',', '"')
        add('registerRenameProvider', {
            prepareRename: async (document, place, token) => {
                const found = await this.at('prepareRename', document, place, token)
                return { range: range(found.range), placeholder: found.placeholder }
            },
            provideRenameEdits: async (document, place, newName, token) =>
                edit(await this.at('rename', document, place, token, { newName })) })
        add('registerDocumentFormattingEditProvider', {
            provideDocumentFormattingEdits: async (document, options, token) =>
                list(await this.ask('formatting', document, { options }, token), textEdit) })
        add('registerDocumentRangeFormattingEditProvider', {
            provideDocumentRangeFormattingEdits: async (document, span, options, token) =>
                list(await this.ask('rangeFormatting', document, { range: toRange(span), options }, token), textEdit) })
        add('registerCodeActionsProvider', { provideCodeActions: async (document, span, context, token) =>
            list(await this.ask('codeAction', document,
                { range: toRange(span), context: { diagnostics: [] } }, token), action) })
        add('registerCodeLensProvider', { provideCodeLenses: async (document, token) =>
            list(await this.ask('codeLens', document, {}, token),
                it => new vscode.CodeLens(range(it.range), it.command)) })
        context.subscriptions.push(vscode.commands.registerCommand('ti_bench.test', (...words) =>
            this.connection.ask('workspace/executeCommand', { command: 'ti_bench.test', arguments: words })))
    }
}

async function activate(context) {
    session = new Session(context)
    // if the server has ended, that was said
    await session.begun.catch(error =>
        session.connection.isEnded || vscode.window.showErrorMessage(`ti_bench-lsp: ${error.message}`))
}

async function deactivate() {
    if (session) await session.connection.end()
}

module.exports = { activate, deactivate }
