"""A client of the language server, for tests: it sends messages and waits for what comes."""
import json
import os
import queue
import subprocess
import threading
import time
import urllib.parse

from calling import TOOLS

PATIENCE = 60


def place(line, column):
    return {'line': line, 'character': column}


def span(line, start, end):
    return {'start': place(line, start), 'end': place(line, end)}


class Client:
    """A session with a server of its own, in a folder."""

    def __init__(self, folder, options=None, capabilities=None, words=(), **environment):
        self.folder, self.number, self.versions = folder, 0, {}
        self.process = subprocess.Popen([TOOLS / 'lsp', *words], stdin=subprocess.PIPE, stdout=subprocess.PIPE,
                                        stderr=subprocess.PIPE, cwd=folder, env={**os.environ, **environment})
        self.answers, self.told, self.asked, self.messages = {}, {}, [], []
        self.arrived = queue.Queue()
        threading.Thread(target=self.read, daemon=True).start()
        self.errors = []
        threading.Thread(target=lambda: self.errors.append(self.process.stderr.read()), daemon=True).start()
        self.capabilities = None
        if options is not False:
            found = self.ask('initialize', {'capabilities': capabilities or {}, 'initializationOptions': options or {}})
            self.capabilities = found['result']['capabilities'] if 'result' in found else found
            self.notify('initialized', {})

    def read(self):
        stream = self.process.stdout
        while True:
            length = None
            while (line := stream.readline()).strip():
                if line.lower().startswith(b'content-length:'):
                    length = int(line.partition(b':')[2])
            if length is None:
                self.arrived.put(None)
                return
            self.arrived.put(json.loads(stream.read(length)))

    def write(self, body):
        self.process.stdin.write(b'Content-Length: %d\r\n\r\n%s' % (len(body), body))
        self.process.stdin.flush()

    def send(self, method, given, **more):
        self.write(json.dumps({'jsonrpc': '2.0', 'method': method, 'params': given, **more}).encode())

    def notify(self, method, given):
        self.send(method, given)

    def begin(self, method, given):
        """Sends a request; its number."""
        self.number += 1
        self.send(method, given, id=self.number)
        return self.number

    def take(self, ends):
        """Takes one message that arrives; whether one did."""
        try:
            message = self.arrived.get(timeout=max(0.01, ends - time.monotonic()))
        except queue.Empty:
            return False
        if message is None:
            raise EOFError(self.errors)
        if 'method' not in message:
            self.answers[message.get('id')] = message
        elif message['method'] == 'textDocument/publishDiagnostics':
            given = message['params']
            self.told[given['uri']] = given['diagnostics']
            self.messages.append((time.monotonic(), given))
        else:
            self.asked.append(message)
        return True

    def wait(self, test, patience=PATIENCE):
        """Waits until something is so; what the test returns."""
        ends = time.monotonic() + patience
        while not (found := test()):
            if not self.take(ends) and time.monotonic() > ends:
                raise TimeoutError(f'{self.told} {self.asked} {self.errors}')
        return found

    def answer(self, number, patience=PATIENCE):
        self.wait(lambda: number in self.answers, patience)
        return self.answers.pop(number)

    def ask(self, method, given, patience=PATIENCE):
        return self.answer(self.begin(method, given), patience)

    def uri(self, name):
        return 'file://' + urllib.parse.quote(str(self.folder / name))

    def open(self, name, text, language=None):
        self.versions[name] = 1
        language = language or ('ti99gpl' if name.endswith('gpl') else 'ti99asm')
        self.notify('textDocument/didOpen', {'textDocument': {
            'uri': self.uri(name), 'languageId': language, 'version': 1, 'text': text}})

    def change(self, name, *changes):
        """Changes a text: each change is a whole text, or a range and what stands there."""
        self.versions[name] += 1
        found = [{'text': it} if isinstance(it, str) else {'range': it[0], 'text': it[1]} for it in changes]
        self.notify('textDocument/didChange', {'textDocument': {
            'uri': self.uri(name), 'version': self.versions[name]}, 'contentChanges': found})

    def request(self, method, name, line=0, column=0, patience=PATIENCE, **more):
        """The answer to a request on a place of a text."""
        return self.ask(f'textDocument/{method}', {
            'textDocument': {'uri': self.uri(name)}, 'position': place(line, column), **more}, patience)

    def result(self, method, name, line=0, column=0, **more):
        found = self.request(method, name, line, column, **more)
        if 'error' in found:
            raise AssertionError(found['error'])
        return found['result']

    def diagnostics(self, name, count=None):
        """The diagnostics of a text: pairs of line and message, once there are so many."""
        uri = self.uri(name)
        self.wait(lambda: uri in self.told and (count is None or len(self.told[uri]) == count))
        return [(it['range']['start']['line'] + 1, it['message']) for it in self.told[uri]]

    def forget(self):
        self.told.clear()

    def end(self):
        """Ends the session; the status."""
        self.ask('shutdown', None)
        self.notify('exit', None)
        return self.closed()

    def closed(self):
        status = self.process.wait(timeout=PATIENCE)
        self.process.stdin.close()
        self.process.stdout.close()
        return status
