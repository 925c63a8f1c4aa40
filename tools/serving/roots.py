"""The sources that are analysed: when that begins anew, and what editors are sent of it."""
import asyncio
import concurrent.futures
import contextlib
import os
import threading
import time
import typing

from lib.command import Stopped

from . import showing
from .analysis import analyse, warnings_of
from .project import Project
from .runs import Cancelled, Folders, Work

# how long the keys must rest before a source is analysed, and before warnings are looked for, in seconds; and how long
# a request waits for the analysis of the text as it is, and completion
DEBOUNCE, REST, PATIENCE, SOON = 0.01, 0.5, 2.0, 0.1


class Root:
    """A source that is analysed: its language, its folder, the task that does it, the last analysis, and what editors
    were sent."""

    def __init__(self, language, shadow):
        self.language, self.shadow = language, shadow
        self.task, self.rest, self.hurry, self.analysis, self.sent = None, None, asyncio.Event(), None, {}


class Roots:
    """All sources. Their work is done in threads, since it waits for the programs."""

    def __init__(self, peer):
        self.peer, self.project, self.found = peer, Project(), {}
        self.programs, self.folders, self.debounce = None, None, DEBOUNCE
        self.defines: typing.List[tuple] = []
        self.pool = concurrent.futures.ThreadPoolExecutor(max(2, min(4, (os.cpu_count() or 2))))

    def begin(self, programs):
        self.programs, self.folders = programs, Folders()

    def end(self):
        """Ends all work and removes its folders."""
        for root in self.found.values():
            if root.task:
                root.task.cancel()
        if self.folders:
            self.folders.remove()

    async def at_once(self, function, *given):
        """What a function returns that does its work in a thread; if this is cancelled its runs are ended."""
        work = Work(self.programs)
        future = asyncio.get_running_loop().run_in_executor(self.pool, function, work, *given)
        try:
            return await asyncio.shield(future)
        except asyncio.CancelledError:
            work.cancel()
            with contextlib.suppress(Exception):
                await asyncio.shield(future)
            raise

    async def aside(self, function):
        """What a function returns that takes long in a large source: other answers need not wait for it."""
        return await asyncio.get_running_loop().run_in_executor(self.pool, function)

    def schedule(self, document, delay):
        """Begins the analyses of all sources that a text belongs to anew."""
        for at, language in self.project.roots(document):
            root = self.found.get(at.uri)
            if not root:
                root = self.found[at.uri] = Root(language, self.folders.new())
            root.language = language
            before = root.task
            if before:
                before.cancel()
            root.hurry = asyncio.Event()
            root.task = asyncio.ensure_future(self.analysed(root, at, delay, before))
            root.task.add_done_callback(self.ended)

    def ended(self, task):
        """Says it if an analysis ended by an error, as of a program that is gone."""
        if not task.cancelled() and task.exception():
            error = task.exception()
            text = error.text if isinstance(error, Stopped) else repr(error)
            self.peer.notify('window/showMessage', {'type': 1, 'message': f'ti_bench-lsp: {text}'})

    async def analysed(self, root, at, delay, before):
        """Analyses a source, once the analysis before it has let go of its folder."""
        if delay:
            with contextlib.suppress(asyncio.TimeoutError):
                await asyncio.wait_for(root.hurry.wait(), delay)
        if before:
            await asyncio.wait([before])
        document = self.project.open.get(at.uri) or (self.project.at(at.path) if at.path else None)
        if document is None:
            self.forget(at.uri)
            return
        source, loop = self.project.source(document, root.language), asyncio.get_running_loop()
        before_this = root.analysis

        def known():
            return before_this.names if before_this else {}

        def seen(found):
            # the thread goes on once this is sent: only one thread of Python runs at a time, and it would go first
            sent = threading.Event()
            loop.call_soon_threadsafe(self.publish_of, root, source, [*found], known, sent)
            sent.wait(SOON)
        try:
            root.analysis = found = await self.at_once(analyse, source, root.shadow, self.defines, seen)
        except Cancelled:
            return
        self.publish(root, source, showing.refused(source, found.refusals, lambda: found.names))
        if found.is_whole and source.language == 'gpl':
            root.rest = asyncio.ensure_future(self.warned(root, found))

    def publish_of(self, root, source, found, known, sent):
        try:
            if root.task and not root.task.done():
                self.publish(root, source, showing.refused(source, found, known))
        finally:
            sent.set()

    async def warned(self, root, analysis):
        """Looks for warnings if the text stays as it is for a while."""
        await asyncio.sleep(REST)
        if root.analysis is not analysis or not root.task.done():
            return
        root.task = asyncio.ensure_future(self.warn(root, analysis))
        root.task.add_done_callback(self.ended)

    async def warn(self, root, analysis):
        with contextlib.suppress(Cancelled):
            analysis.warnings = await self.at_once(warnings_of, analysis, str(root.shadow.path), self.defines)
            found = showing.refused(analysis.source, [], dict)
            for uri, it in showing.warned(analysis.source, analysis.warnings):
                found.setdefault(uri, []).append(it)
            self.publish(root, analysis.source, found)

    def publish(self, root, source, found):
        """Sends the diagnostics of a source that are not what was sent last."""
        old, root.sent = root.sent, found
        for uri in {*old, *found}:
            if uri not in old or old.get(uri) != found.get(uri):
                self.tell(uri)

    def tell(self, uri):
        """Sends the diagnostics of a text, of all sources that it belongs to, each once."""
        found = []
        for root in self.found.values():
            found += [it for it in root.sent.get(uri, ()) if it not in found]
        document = self.project.open.get(uri)
        version = {'version': document.version} if document and document.version is not None else {}
        self.peer.notify('textDocument/publishDiagnostics', {'uri': uri, 'diagnostics': found, **version})

    def forget(self, uri):
        """Ends the analysis of a source, and takes back what was sent of it."""
        root = self.found.pop(uri, None)
        if root:
            for other in root.sent:
                self.tell(other)
            if root.task and not root.task.done():
                # its thread has let go of the folder once it has ended
                root.task.add_done_callback(lambda _: root.shadow.remove())
                root.task.cancel()
            else:
                root.shadow.remove()

    def settle(self):
        """Once other texts are open, or name other files: forgets the sources to which no text belongs that is open, and
        begins the analyses of those that are new."""
        wanted = set()
        for document in list(self.project.open.values()):
            own = {at.uri for at, _ in self.project.roots(document)}
            wanted |= own
            if not own <= set(self.found):
                self.schedule(document, 0)
        for uri in set(self.found) - wanted:
            self.forget(uri)

    async def of(self, document, patience=PATIENCE):
        """The analysis of the first source that a text belongs to, and the text's name there: of the text as it is, if
        it ends soon or is the first, else the last one."""
        root = next((self.found[at.uri] for at, _ in self.project.roots(document) if at.uri in self.found), None)
        ends = time.monotonic() + patience
        while root and root.task and not root.task.done():
            left = ends - time.monotonic() if root.analysis else None
            if left is not None and left <= 0 or root.analysis and self.is_current(root):
                break
            root.hurry.set()
            await asyncio.wait([root.task], timeout=left)
        if not root or not root.analysis:
            return None, None
        return root.analysis, root.analysis.source.file_of(document.uri)

    def is_current(self, root):
        """Whether the last analysis is of the texts as they are."""
        document = self.project.open.get(root.analysis.source.root.uri, root.analysis.source.root)
        return root.analysis.source == self.project.source(document, root.language)
