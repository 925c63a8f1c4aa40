"""Chromium without a window, driven over its debugging pipe: pages, what a script of theirs gives, keys and clicks."""
import json
import os
import select
import shutil
import subprocess
import tempfile
import time

NAMES = ['chromium', 'chromium-browser', 'google-chrome']
SECONDS = 60


def found():
    """The path of Chromium, or None."""
    return next((path for path in map(shutil.which, NAMES) if path), None)


class Failed(Exception):
    """The page, or the browser, did not do what was asked."""


class Browser:
    """A browser with one page. `complaints` are the errors of its scripts and what it asked of a network."""

    def __init__(self, path, width=1400, height=900, dark=False):
        self.kept = tempfile.TemporaryDirectory(prefix='ti bench ')
        self.complaints, self.number, self.waiting = [], 0, b''
        to_read, self.to = os.pipe()
        self.from_, to_write = os.pipe()
        command = [path, '--headless', '--no-sandbox', '--disable-gpu', '--hide-scrollbars', '--no-first-run',
                   '--disable-background-networking', '--disable-dev-shm-usage', f'--window-size={width},{height}',
                   f'--user-data-dir={self.kept.name}', '--remote-debugging-pipe', 'about:blank']
        # the browser reads commands from descriptor 3 and writes answers to descriptor 4
        shell = f'exec 3<&{to_read} 4>&{to_write}; exec "$@"'
        self.process = subprocess.Popen(['bash', '-c', shell, 'bash', *command], pass_fds=[to_read, to_write],
                                        stdin=subprocess.DEVNULL, stdout=subprocess.DEVNULL, stderr=subprocess.DEVNULL)
        os.close(to_read)
        os.close(to_write)
        self.session = None
        target = next(it for it in self.ask('Target.getTargets')['targetInfos'] if it['type'] == 'page')
        self.session = self.ask('Target.attachToTarget', targetId=target['targetId'], flatten=True)['sessionId']
        for domain in ('Page', 'Runtime', 'Log', 'Network', 'Performance'):
            self.ask(f'{domain}.enable')
        if dark:
            self.ask('Emulation.setEmulatedMedia', features=[{'name': 'prefers-color-scheme', 'value': 'dark'}])
        self.ask('Emulation.setDeviceMetricsOverride', width=width, height=height, deviceScaleFactor=1, mobile=False)

    def __enter__(self):
        return self

    def __exit__(self, *how):
        for end in (self.to, self.from_):
            os.close(end)
        self.process.kill()
        self.process.wait()
        shutil.rmtree(self.kept.name, ignore_errors=True)

    def ask(self, method, **given):
        """What a command of the debugging protocol gives."""
        self.number += 1
        message = {'id': self.number, 'method': method, 'params': given}
        if self.session:
            message['sessionId'] = self.session
        os.write(self.to, json.dumps(message).encode() + b'\0')
        while True:
            answer = self.message()
            if answer.get('id') == self.number:
                if 'error' in answer:
                    raise Failed(f'{method}: {answer["error"]["message"]}')
                return answer['result']
            self.note(answer)

    def message(self):
        """The next message of the browser."""
        deadline = time.monotonic() + SECONDS
        while b'\0' not in self.waiting:
            if not select.select([self.from_], [], [], max(0, deadline - time.monotonic()))[0]:
                raise Failed(f'the browser does not answer within {SECONDS} seconds')
            more = os.read(self.from_, 1 << 20)
            if not more:
                raise Failed('the browser has ended')
            self.waiting += more
        first, _, self.waiting = self.waiting.partition(b'\0')
        return json.loads(first)

    def note(self, message):
        """Keeps what no page may do: an error of a script, or a request of anything but the file."""
        given = message.get('params', {})
        if message.get('method') == 'Runtime.exceptionThrown':
            self.complaints.append(given['exceptionDetails'].get('exception', {}).get('description', 'an error'))
        elif message.get('method') == 'Log.entryAdded' and given['entry']['level'] == 'error':
            self.complaints.append(given['entry']['text'])
        elif message.get('method') == 'Network.requestWillBeSent':
            url = given['request']['url']
            if not url.startswith(('file:', 'about:')):
                self.complaints.append(f'a request of {url}')

    def open(self, address):
        """Opens a page, and waits until its script has run; the seconds that it took."""
        begun = time.monotonic()
        self.ask('Page.navigate', url='about:blank')
        self.ask('Page.navigate', url=address)
        while self.value('document.readyState + location.protocol') != 'completefile:':
            time.sleep(0.01)
        return time.monotonic() - begun

    def value(self, script):
        """What a script gives in the page."""
        result = self.ask('Runtime.evaluate', expression=script, returnByValue=True, awaitPromise=True)
        if 'exceptionDetails' in result:
            raise Failed(result['exceptionDetails'].get('exception', {}).get('description', script))
        return result['result'].get('value')

    def processor_time(self):
        """The seconds of processor that the page's thread has taken, whatever else the machine does."""
        found = self.ask('Performance.getMetrics')['metrics']
        return next(it['value'] for it in found if it['name'] == 'ThreadTime')

    def key(self, key, text='', shift=False):
        """Presses a key, with the text that it types."""
        given = {'key': key, 'modifiers': 8 if shift else 0}
        self.ask('Input.dispatchKeyEvent', type='keyDown', text=text, **given)
        self.ask('Input.dispatchKeyEvent', type='keyUp', **given)

    def type(self, text):
        """Types a text into what has the focus."""
        self.ask('Input.insertText', text=text)

    def click(self, selector, shift=False):
        """Clicks the middle of an element."""
        self.click_at(*self.value(f'''(() => {{
            const element = document.querySelector({json.dumps(selector)})
            element.scrollIntoView({{block: 'nearest', inline: 'nearest'}})
            const {{left, top, width, height}} = element.getBoundingClientRect()
            return [left + width / 2, top + height / 2]
        }})()'''), shift=shift)

    def click_at(self, x, y, shift=False):
        """Clicks a point of the page."""
        given = {'x': x, 'y': y, 'button': 'left', 'clickCount': 1, 'modifiers': 8 if shift else 0}
        self.ask('Input.dispatchMouseEvent', type='mousePressed', **given)
        self.ask('Input.dispatchMouseEvent', type='mouseReleased', **given)

    def picture(self):
        """What is seen, as a PNG file in base64."""
        return self.ask('Page.captureScreenshot', format='png')['data']
