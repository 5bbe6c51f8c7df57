"""A browser without a window, driven by its DevTools protocol over two pipes: pages are opened, and real input and files given to them."""
import base64
import json
import os
import select
import shutil
import signal
import subprocess
import tempfile
import time

BROWSER = next(filter(None, map(shutil.which, ('chromium', 'chromium-browser', 'google-chrome'))), None)
WORDS = ('--headless', '--no-sandbox', '--disable-gpu', '--disable-dev-shm-usage', '--no-first-run', '--hide-scrollbars', '--disable-background-networking',
         '--disable-component-update', '--remote-debugging-pipe')


class Failure(Exception):
    """The browser refuses a command, or does not answer in time."""


class Browser:
    """A running browser. What it reports is kept in `events`, a list of (name, parameters, session)."""

    def __init__(self, *words):
        self.room = tempfile.mkdtemp()
        to_browser, self.output = os.pipe()
        self.input, from_browser = os.pipe()
        self.waiting, self.number, self.events, self.answers = b'', 0, [], {}

        def connect():
            # (the browser reads from file 3 and writes to file 4)
            kept = [os.dup(to_browser), os.dup(from_browser)]
            os.dup2(kept[0], 3)
            os.dup2(kept[1], 4)

        self.process = subprocess.Popen(
            [BROWSER, *WORDS, f'--user-data-dir={self.room}', *words, 'about:blank'], stdin=subprocess.DEVNULL, stdout=subprocess.DEVNULL,
            stderr=subprocess.DEVNULL, start_new_session=True, close_fds=False, preexec_fn=connect)
        os.close(to_browser)
        os.close(from_browser)

    def close(self):
        os.close(self.output)
        try:
            self.process.wait(10)
        except subprocess.TimeoutExpired:
            os.killpg(self.process.pid, signal.SIGKILL)
            self.process.wait()
        os.close(self.input)
        shutil.rmtree(self.room, ignore_errors=True)

    def ask(self, method, session=None, seconds=60, **parameters):
        """Gives the browser a command, and returns its result."""
        self.number += 1
        message = {'id': self.number, 'method': method, 'params': parameters, **({'sessionId': session} if session else {})}
        data = json.dumps(message).encode() + b'\0'
        while data:
            data = data[os.write(self.output, data):]
        asked, until = self.number, time.monotonic() + seconds
        while asked not in self.answers:
            self.take(until, method)
        answer = self.answers.pop(asked)
        if 'error' in answer:
            raise Failure(f'{method}: {answer["error"]}')
        return answer['result']

    def take(self, until, what):
        """Takes the next messages of the browser."""
        left = until - time.monotonic()
        if left <= 0 or not select.select([self.input], [], [], left)[0]:
            raise Failure(f'{what}: no answer in time')
        data = os.read(self.input, 1 << 20)
        if not data:
            raise Failure(f'{what}: the browser has ended')
        *messages, self.waiting = (self.waiting + data).split(b'\0')
        for message in map(json.loads, messages):
            if 'id' in message:
                self.answers[message['id']] = message
            else:
                self.events.append((message['method'], message['params'], message.get('sessionId')))

    def page(self, width, height):
        return Page(self, width, height)


class Page:
    """A page of the browser, with a size in pixels. What it and its workers ask of a network is reported in the browser's events."""

    def __init__(self, browser, width, height):
        self.browser = browser
        self.target = browser.ask('Target.createTarget', url='about:blank')['targetId']
        self.session = browser.ask('Target.attachToTarget', targetId=self.target, flatten=True)['sessionId']
        for domain in ('Page', 'Runtime', 'Network', 'Log', 'DOM'):
            self.ask(f'{domain}.enable')
        self.ask('Target.setAutoAttach', autoAttach=True, waitForDebuggerOnStart=False, flatten=True)
        self.ask('Emulation.setDeviceMetricsOverride', width=width, height=height, deviceScaleFactor=1, mobile=False)

    def ask(self, method, **words):
        return self.browser.ask(method, session=self.session, **words)

    def open(self, address):
        self.ask('Page.navigate', url=address)
        self.until('document.readyState === "complete" && location.href !== "about:blank"')

    def run(self, script, seconds=60):
        """Returns the value of an expression, which may be a promise."""
        result = self.ask('Runtime.evaluate', expression=script, awaitPromise=True, returnByValue=True, seconds=seconds)
        if 'exceptionDetails' in result:
            raise Failure(f'{script[:200]}: {result["exceptionDetails"]}')
        return result['result'].get('value')

    def until(self, condition, seconds=60):
        """Waits until an expression is true."""
        until = time.monotonic() + seconds
        while not self.run(f'Boolean({condition})'):
            if time.monotonic() > until:
                raise Failure(f'not so in time: {condition}')
            time.sleep(0.02)

    def middle_of(self, selector):
        box = self.run(f'(() => {{ const one = document.querySelector({json.dumps(selector)}); one.scrollIntoView({{ block: "nearest" }}); '
                       'const box = one.getBoundingClientRect(); return [box.left + box.width / 2, box.top + box.height / 2]; })()')
        return {'x': box[0], 'y': box[1]}

    def click(self, selector):
        """Clicks in the middle of an element with the mouse."""
        place = self.middle_of(selector)
        for kind in ('mousePressed', 'mouseReleased'):
            self.ask('Input.dispatchMouseEvent', type=kind, button='left', clickCount=1, **place)

    def press(self, key, text=''):
        code = {'Enter': 13, 'Tab': 9, ' ': 32, 'ArrowDown': 40}.get(key, 0)
        words = {'key': key, 'windowsVirtualKeyCode': code, **({'text': text} if text else {})}
        self.ask('Input.dispatchKeyEvent', type='keyDown', **words)
        self.ask('Input.dispatchKeyEvent', type='keyUp', key=key, windowsVirtualKeyCode=code)

    def give_files(self, selector, paths):
        """Gives files to a file input, as its dialog does."""
        root = self.ask('DOM.getDocument')['root']['nodeId']
        node = self.ask('DOM.querySelector', nodeId=root, selector=selector)['nodeId']
        self.ask('DOM.setFileInputFiles', files=paths, nodeId=node)

    def drop_files(self, selector, paths):
        """Drops files on an element, as from another window."""
        data = {'items': [], 'files': paths, 'dragOperationsMask': 1}
        for kind in ('dragEnter', 'dragOver', 'drop'):
            self.ask('Input.dispatchDragEvent', type=kind, data=data, **self.middle_of(selector))

    def picture(self):
        """Returns a picture of the page, as PNG."""
        return base64.b64decode(self.ask('Page.captureScreenshot', format='png')['data'])

    def dark(self, is_dark):
        self.ask('Emulation.setEmulatedMedia', features=[{'name': 'prefers-color-scheme', 'value': 'dark' if is_dark else 'light'}])
