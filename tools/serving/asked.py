"""What an editor asks to be done: renaming, formatting, changes of refused lines, and tests. Each change is checked by
runs of the program before it is answered."""
import os
import sys
import typing

from lib.repository import TOP

from . import changes, fixes, names
from .analysis import analyse
from .rpc import Refused
from .text import edits, place
from .tokens import COLUMNS

MOST_TOLD = 20


class Asked:
    def __init__(self, roots):
        self.roots = roots
        self.columns: typing.Tuple[int, ...] = COLUMNS

    def methods(self):
        return {'prepareRename': self.prepare_rename, 'rename': self.rename, 'formatting': self.formatting,
                'rangeFormatting': self.formatting, 'codeAction': self.actions}

    def sources(self, document):
        """All sources that a text belongs to, as they are now."""
        return [self.roots.project.source(at, language) for at, language in self.roots.project.roots(document)]

    async def analysis_of(self, source):
        """The analysis of a source as it is now."""
        root = self.roots.found.get(source.root.uri)
        if root and root.analysis and root.analysis.source == source:
            return root.analysis
        shadow = self.roots.folders.new()
        try:
            return await self.roots.at_once(analyse, source, shadow, self.roots.defines)
        finally:
            shadow.remove()

    def key_of(self, analysis, given, document):
        """The name at a place, which must have a value or be a macro."""
        key = names.key_at(analysis, analysis.source.file_of(document.uri), document, given['position'])
        if not key or key.kind == names.NAME and not key.names <= set(analysis.names):
            raise Refused('here is no name of this source')
        return key

    async def prepare_rename(self, given, document):
        analysis, _ = await self.roots.of(document)
        if not analysis:
            raise Refused('here is no name of this source')
        key, number = self.key_of(analysis, given, document), given['position']['line']
        line = document.line(number)
        return {'range': place(line, number, key.start, key.end), 'placeholder': line[key.start:key.end]}

    async def rename(self, given, document):
        new, texts, documents = given['newName'], {}, {}
        for source in self.sources(document):
            analysis = await self.analysis_of(source)
            key = self.key_of(analysis, given, document)
            changes.check_name(key, new)
            found = changes.renamed(analysis, key, new)
            await self.check(source, found, f'{key.written} is not renamed', changes.names.external(analysis, key))
            for it in source.documents:
                if it.uri in found:
                    if texts.get(it.uri, found[it.uri]) != found[it.uri]:
                        raise Refused(f'{key.written} is not renamed: it is another name in another source')
                    texts[it.uri], documents[it.uri] = found[it.uri], it
        return changes.workspace_edit(documents, texts)

    async def formatting(self, given, document):
        span, language = given.get('range'), self.roots.project.language(document)
        first, last = (span['start']['line'], span['end']['line']) if span else (0, len(document.lines) - 1)
        lines = changes.set_out_lines(language, document, first, last, self.columns)
        for source in self.sources(document):
            await self.check(source, {document.uri: lines}, 'the text is not formatted')
        return list(edits(document.lines, lines))

    async def check(self, source, texts, refused, reason=None):
        await self.roots.at_once(changes.check, self.roots.folders, source, texts, refused, reason, self.roots.defines)

    async def actions(self, given, document):
        """The ways to write the refused lines of a range after which a run refuses them no more."""
        analysis, file = await self.roots.of(document)
        if not analysis:
            return []
        first, last = given['range']['start']['line'], given['range']['end']['line']
        found = []
        for it in analysis.refusals:
            if it.file == file and first <= it.number - 1 <= last:
                for title, texts in self.ways(analysis, document, it):
                    if await self.helps(analysis.source, texts, it):
                        found.append((title, texts))
        documents = {it.uri: it for it in analysis.source.documents}
        return [{'title': title, 'kind': 'quickfix', 'edit': changes.workspace_edit(documents, texts)}
                for title, texts in found]

    def ways(self, analysis, document, refused):
        """Titles and the lines of changed texts."""
        number, source = refused.number - 1, analysis.source
        line = document.line(number)
        end = document.lines[number][len(line):] if number < len(document.lines) else ''
        for title, new in fixes.of_line(source.language, line, refused.cause):
            yield title, {document.uri: [*document.lines[:number], new + end, *document.lines[number + 1:]]}
        long = fixes.shortened([text for it in source.documents for text in it.lines], line)
        if long and refused.cause in fixes.SLIPS:
            yield f'Write {long[1]} for {long[0]} everywhere', {it.uri: fixes.with_word(it.lines, *long)
                                                               for it in source.documents}

    async def helps(self, source, texts, refused):
        """Whether a line is not refused any more."""
        changed = source.with_lines(texts)
        # the line may name another file now
        named = self.roots.project.source(changed.root, source.language)
        analysis = await self.analysis_of(named._replace(files={**named.files, **changed.files}))
        return not any((it.file, it.number) == (refused.file, refused.number) for it in analysis.refusals)

    async def run_test(self, document, name):
        """What tools/test says of a test, and whether it passes."""
        source = self.sources(document)[0]
        shadow = self.roots.folders.new()
        try:
            return await self.roots.at_once(tested, source, shadow, name, self.roots.defines)
        finally:
            shadow.remove()


def tested(work, source, shadow, name, defines):
    shadow.put({**{file: it.data for file, it in source.files.items()}, source.root.name: source.root.data})
    words = [word for defined, value in defines for word in ('-D', f'{defined}={value}')]
    ended = work.made(sys.executable, '-E', str(TOP / 'tools/test'), '--program', work.programs.bench, '-k', name,
                      *words, source.root.name, given=b'', folder=str(shadow.path))
    rows = [row for row in os.fsdecode(ended.out + ended.err).split('\n') if row]
    return '\n'.join(rows[:MOST_TOLD]) or f'tools/test ended with status {ended.status}', ended.status == 0
