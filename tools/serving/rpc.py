"""JSON-RPC 2.0 in the frames of the Language Server Protocol, over standard input and output."""
import asyncio
import json
import os
import select
import sys
import threading
import traceback

from lib.command import Stopped

PARSE, INVALID, UNKNOWN, PARAMETERS, INTERNAL = -32700, -32600, -32601, -32602, -32603
CANCELLED, FAILED = -32800, -32803
# the most bytes of a message, and of the lines before it
MOST, MOST_HEAD = 64 * 1024 * 1024, 4096


class Refused(Exception):
    """A request is answered by an error: its text and its code."""

    def __init__(self, text, code=FAILED):
        super().__init__(text)
        self.text, self.code = text, code


def length_of(head):
    """The length that the lines before a message name, or None if they name none that can be read."""
    for line in head.split(b'\r\n'):
        name, _, value = line.partition(b':')
        if name.strip().lower() == b'content-length' and value.strip().isdigit() and int(value) <= MOST:
            return int(value)
    return None


def frames(descriptor):
    """The bodies of the messages of an input, up to its end or the first head that is none."""
    data = bytearray()

    def more():
        found = os.read(descriptor, 1 << 16)
        data.extend(found)
        return bool(found)
    while True:
        while (end := data.find(b'\r\n\r\n')) < 0:
            if len(data) > MOST_HEAD or not more():
                return
        length = length_of(bytes(data[:end]))
        if length is None:
            return
        while len(data) < end + 4 + length:
            if not more():
                return
        yield bytes(data[end + 4:end + 4 + length])
        del data[:end + 4 + length]


class Peer:
    """The other end. A method is a function of the parameters; for a request it returns the result, or a coroutine that
    does. It is called as soon as the message is read, so that it sees the texts as they are at that place of the input.
    What the coroutine does may come later, and a request that is cancelled ends it."""

    def __init__(self, methods):
        self.methods, self.waiting, self.asked, self.number = methods, {}, {}, 0
        self.ended = asyncio.Event()

    async def serve(self):
        """Reads and answers messages until the input ends or `ended` is set."""
        loop = asyncio.get_running_loop()

        def read():
            try:
                for body in frames(0):
                    loop.call_soon_threadsafe(self.take_body, body)
                loop.call_soon_threadsafe(self.ended.set)
            except (OSError, RuntimeError):
                # the input cannot be read, or the loop has ended
                if not loop.is_closed():
                    loop.call_soon_threadsafe(self.ended.set)
        threading.Thread(target=read, daemon=True).start()
        await self.ended.wait()

    def take_body(self, body):
        if self.ended.is_set():
            return
        try:
            message = json.loads(body)
        except (ValueError, RecursionError) as error:
            self.fail(None, PARSE, str(error))
            return
        for one in message if isinstance(message, list) else [message]:
            self.take(one)

    def take(self, message):
        if not isinstance(message, dict):
            self.fail(None, INVALID, 'a message is an object')
        elif 'method' not in message:
            future = self.asked.pop(str(message.get('id')), None)
            if future and not future.done():
                future.set_result(message.get('result'))
        elif message['method'] == '$/cancelRequest':
            given = message.get('params')
            task = self.waiting.get(str(given.get('id'))) if isinstance(given, dict) else None
            if task:
                task.cancel()
        else:
            self.call(message.get('id'), message['method'], message.get('params') or {}, 'id' in message)

    def call(self, number, name, given, is_request):
        method = self.methods.get(name) if isinstance(name, str) else None
        if not method:
            if is_request:
                self.fail(number, UNKNOWN, f'no method {name}')
            return
        try:
            result = method(given)
        except Exception as error:
            self.failed(number, name, error, is_request)
            return
        if asyncio.iscoroutine(result):
            task = asyncio.ensure_future(result)
            if is_request:
                self.waiting[str(number)] = task
            task.add_done_callback(lambda task: self.done(number, name, task, is_request))
        elif is_request:
            self.write({'id': number, 'result': result})

    def done(self, number, name, task, is_request):
        self.waiting.pop(str(number), None)
        if task.cancelled():
            if is_request:
                self.fail(number, CANCELLED, 'cancelled')
        elif task.exception():
            self.failed(number, name, task.exception(), is_request)
        elif is_request:
            self.write({'id': number, 'result': task.result()})

    def failed(self, number, name, error, is_request):
        if isinstance(error, Refused):
            code, text = error.code, error.text
        elif isinstance(error, Stopped):
            # what a program wrote is no report, or it cannot be run
            code, text = FAILED, error.text
        elif isinstance(error, (KeyError, TypeError, IndexError, AttributeError)):
            code, text = PARAMETERS, f'{name}: not the parameters of this method ({error!r})'
        else:
            code, text = INTERNAL, f'{name}: {error!r}'
        if code != FAILED and not isinstance(error, Refused):
            traceback.print_exception(type(error), error, error.__traceback__, file=sys.stderr)
        if is_request:
            self.fail(number, code, text)

    def fail(self, number, code, text):
        self.write({'id': number, 'error': {'code': code, 'message': text}})

    def notify(self, method, given):
        self.write({'method': method, 'params': given})

    def ask(self, method, given):
        """Sends a request; a future of its result, None if it failed."""
        self.number += 1
        self.asked[str(self.number)] = future = asyncio.get_running_loop().create_future()
        self.write({'id': self.number, 'method': method, 'params': given})
        return future

    def write(self, message):
        """Writes a message as a whole. Standard output may be one that does not wait, if it is one open file with the
        input. If nobody reads it any more, the server ends."""
        body = json.dumps({'jsonrpc': '2.0', **message}, separators=(',', ':')).encode()
        left = memoryview(b'Content-Length: %d\r\n\r\n%s' % (len(body), body))
        while left and not self.ended.is_set():
            try:
                left = left[os.write(1, left):]
            except BlockingIOError:
                select.select([], [1], [])
            except OSError:
                self.ended.set()
