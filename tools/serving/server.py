"""The methods of the server: which texts are open, and what is answered."""
import contextlib
import os

from expanding.author import define
from lib.command import Stopped
from lib.version import version

from . import lenses, names, saying, showing
from .asked import Asked
from .roots import DEBOUNCE, SOON, Roots
from .rpc import INVALID, PARAMETERS, Peer, Refused
from .runs import Programs
from .text import Document, place
from .tokens import COLUMNS, field_at

NOT_READY = -32002
CAPABILITIES = {
    'positionEncoding': 'utf-16',
    'textDocumentSync': {'openClose': True, 'change': 2, 'save': {'includeText': False}},
    'hoverProvider': True, 'definitionProvider': True, 'referencesProvider': True, 'documentHighlightProvider': True,
    'documentSymbolProvider': True, 'workspaceSymbolProvider': True, 'documentFormattingProvider': True,
    'documentRangeFormattingProvider': True, 'foldingRangeProvider': True, 'inlayHintProvider': True,
    'renameProvider': {'prepareProvider': True}, 'documentLinkProvider': {},
    'codeActionProvider': {'codeActionKinds': ['quickfix']}, 'codeLensProvider': {},
    'completionProvider': {'triggerCharacters': ['@', ',', '"']}, 'signatureHelpProvider': {'triggerCharacters': [' ']},
    'executeCommandProvider': {'commands': [lenses.RUN_TEST]},
    'semanticTokensProvider': {'legend': {'tokenTypes': showing.TYPES, 'tokenModifiers': []}, 'full': True},
}


class Server:
    def __init__(self, path=None):
        self.path, self.is_down, self.watches = path, False, False
        of_session = {'initialize': self.initialize, 'initialized': self.initialized, 'shutdown': self.shutdown,
                      'exit': self.exit}
        of_texts = {'didOpen': self.opened, 'didChange': self.changed, 'didClose': self.closed, 'didSave': self.saved}
        of_folder = {'didChangeWatchedFiles': self.saved, 'symbol': self.workspace_symbols,
                     'executeCommand': self.execute}
        of_text = {'hover': self.hover, 'definition': self.definition, 'references': self.references,
                   'documentHighlight': self.highlights, 'documentSymbol': self.symbols, 'completion': self.completion,
                   'signatureHelp': self.signature, 'foldingRange': self.folds, 'inlayHint': self.hints,
                   'codeLens': self.lenses, 'semanticTokens/full': self.semantic, 'documentLink': self.links}
        self.peer = Peer(of_session)
        self.roots = Roots(self.peer)
        self.asked = Asked(self.roots)
        of_text.update(self.asked.methods())
        self.peer.methods.update({f'textDocument/{name}': self.ready(it) for name, it in of_texts.items()})
        self.peer.methods.update({f'workspace/{name}': self.ready(it) for name, it in of_folder.items()})
        self.peer.methods.update({f'textDocument/{name}': self.ready(self.with_document(it))
                                  for name, it in of_text.items()})

    def ready(self, method):
        """A method that is refused before the server is."""
        def called(given):
            if not self.roots.programs or self.is_down:
                raise Refused('the server is not initialized', NOT_READY)
            return method(given)
        return called

    def with_document(self, method):
        return lambda given: method(given, self.document(given))

    async def run(self):
        try:
            await self.peer.serve()
        finally:
            self.roots.end()
        for root in [*self.roots.found.values()]:
            with contextlib.suppress(BaseException):
                await root.task
        self.roots.end()
        return 0 if self.is_down else 1

    # how a session begins and ends

    def initialize(self, given):
        if self.roots.programs:
            raise Refused('the server is initialized', INVALID)
        options = given.get('initializationOptions') or {}
        self.roots.debounce = options.get('debounce', DEBOUNCE * 1000) / 1000
        self.asked.columns = tuple(it - 1 for it in options['columns']) if 'columns' in options else COLUMNS
        try:
            self.roots.defines = [define(word) for word in options.get('defines', [])]
            self.roots.begin(Programs(self.path))
        except (Stopped, ValueError, OSError) as error:
            raise Refused(error.text if isinstance(error, Stopped) else str(error)) from None
        except Exception as error:
            raise Refused(f'initializationOptions: {error}', PARAMETERS) from None
        watched = given.get('capabilities', {}).get('workspace', {}).get('didChangeWatchedFiles') or {}
        self.watches = bool(watched.get('dynamicRegistration'))
        return {'capabilities': CAPABILITIES, 'serverInfo': {'name': 'ti_bench-lsp', 'version': version()}}

    def initialized(self, given):
        """Asks to hear of files that others change."""
        if self.watches:
            options = {'watchers': [{'globPattern': '**/*'}]}
            self.peer.ask('client/registerCapability', {'registrations': [
                {'id': 'files', 'method': 'workspace/didChangeWatchedFiles', 'registerOptions': options}]})

    def shutdown(self, given):
        """Ends all work and removes its folders already here, since some editors kill a server right after `exit`."""
        self.is_down = True
        self.roots.end()

    def exit(self, given):
        self.peer.ended.set()

    # texts

    def document(self, given):
        document = self.roots.project.open.get(given['textDocument']['uri'])
        if not document:
            raise Refused('the text is not open', PARAMETERS)
        return document

    def opened(self, given):
        item = given['textDocument']
        document = Document.opened(item['uri'], item.get('languageId'), item.get('version'), item['text'])
        self.roots.project.open[document.uri] = document
        self.roots.schedule(document, 0)
        self.roots.settle()

    def changed(self, given):
        document = self.document(given)
        new = document.changed(given['textDocument'].get('version'), given['contentChanges'])
        self.roots.project.open[document.uri], names_files = new, new.named is None
        self.roots.schedule(new, self.roots.debounce)
        if names_files:
            self.roots.settle()

    def closed(self, given):
        self.roots.project.open.pop(given['textDocument']['uri'], None)
        self.roots.settle()
        self.saved(given)

    def saved(self, given):
        for document in list(self.roots.project.open.values()):
            self.roots.schedule(document, 0)
        self.roots.settle()

    # answers from an analysis

    async def hover(self, given, document):
        analysis, file = await self.roots.of(document)
        return analysis and saying.hover(analysis, file, document, given['position'])

    async def key(self, given, document):
        """The analysis, and the name at a place."""
        analysis, file = await self.roots.of(document)
        return analysis, analysis and names.key_at(analysis, file, document, given['position'])

    async def definition(self, given, document):
        analysis, key = await self.key(given, document)
        if not analysis:
            return None
        for number, _, _, target in names.links(analysis.source, document):
            if number == given['position']['line']:
                return [{'uri': target.uri, 'range': place('', 0, 0, 0)}]
        return [it.location for it in names.definitions(analysis, key)] if key else []

    async def references(self, given, document):
        analysis, key = await self.key(given, document)
        defines = given.get('context', {}).get('includeDeclaration', True)
        return [it.location for it in names.places(analysis, key) if defines or not it.defines] if key else []

    async def highlights(self, given, document):
        analysis, key = await self.key(given, document)
        return [{'range': it.location['range'], 'kind': 3 if it.defines else 2}
                for it in names.places(analysis, key) if it.document.uri == document.uri] if key else []

    async def symbols(self, given, document):
        analysis, file = await self.roots.of(document)
        return await self.roots.aside(lambda: list(showing.symbols(analysis, file))) if analysis else []

    def workspace_symbols(self, given):
        found = []
        for root in self.roots.found.values():
            for file, document in names.files(root.analysis.source) if root.analysis else ():
                found += [{'name': it['name'], 'kind': it['kind'],
                           'location': {'uri': document.uri, 'range': it['selectionRange']}}
                          for it in showing.symbols(root.analysis, file)
                          if given.get('query', '').upper() in it['name'].upper()]
        return found

    async def completion(self, given, document):
        analysis, _ = await self.roots.of(document, SOON)
        beside = self.roots.project.beside(os.path.dirname(document.path)) if document.path else []
        language = self.roots.project.language(document)
        return list(showing.completion(language, document, given['position'], analysis, beside))

    def signature(self, given, document):
        field = field_at(document.line(given['position']['line']), document.column(given['position']))
        return saying.signature(self.roots.project.language(document), document, given['position'], field)

    async def hints(self, given, document):
        analysis, file = await self.roots.of(document)
        lines = given['range']['start']['line'], given['range']['end']['line']
        return list(showing.hints(analysis, file, document, *lines)) if analysis else []

    async def lenses(self, given, document):
        analysis, file = await self.roots.of(document)
        beside = self.roots.project.beside(os.path.dirname(document.path)) if document.path else []
        of_labels = lenses.of_labels(analysis, file) if analysis else ()
        return await self.roots.aside(lambda: [*lenses.of_tests(document), *lenses.of_tracefile(document, beside),
                                               *of_labels])

    def folds(self, given, document):
        return list(showing.folds(document))

    async def semantic(self, given, document):
        language = self.roots.project.language(document)
        return await self.roots.aside(lambda: showing.semantic(language, document))

    def links(self, given, document):
        return [{'range': place(document.line(number), number, start, end), 'target': target.uri}
                for number, start, end, target in names.links(self.roots.project.source(document), document)]

    async def execute(self, given):
        if given.get('command') != lenses.RUN_TEST:
            raise Refused(f'no command {given.get("command")}', PARAMETERS)
        uri, name = given['arguments']
        text, passes = await self.asked.run_test(self.document({'textDocument': {'uri': uri}}), str(name))
        self.peer.notify('window/showMessage', {'type': 3 if passes else 1, 'message': text})
        return text
