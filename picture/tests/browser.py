"""A headless Chromium that is driven over a pipe, by the DevTools protocol. Uses the standard library alone."""
import base64
import json
import os
import select
import shutil
import subprocess
import tempfile
import time

PROGRAMS = ('chromium', 'chromium-browser', 'google-chrome')
KEYS = {'ArrowRight': 39, 'ArrowLeft': 37, 'Home': 36, 'End': 35, ' ': 32, 'n': 78, 'Tab': 9, 'Enter': 13}
TEXTS = {' ': ' ', 'n': 'n', 'Enter': '\r'}


def program():
    """The browser that is installed, or None."""
    return next(filter(None, map(shutil.which, PROGRAMS)), None)


class BrowserError(Exception):
    pass


class Browser:
    """One browser with one page. `problems` gathers script errors and requests to the network."""

    def __init__(self):
        self.room = tempfile.mkdtemp(prefix='abt-picture-')
        commands, self.commands = os.pipe()
        self.answers, answers = os.pipe()
        words = [program(), '--headless=new', '--remote-debugging-pipe', '--user-data-dir=' + self.room,
                 '--no-first-run', '--disable-gpu', '--disable-background-networking', '--disable-component-update',
                 '--disable-sync', '--disable-extensions', '--hide-scrollbars', '--allow-file-access-from-files']
        if os.geteuid() == 0:
            words.append('--no-sandbox')

        def take_pipes():
            # the browser reads commands from 3 and writes answers to 4; neither pipe may lie where the other goes
            kept = [os.dup(commands), os.dup(answers)]
            kept = [os.dup(end) for end in kept]
            os.dup2(kept[0], 3)
            os.dup2(kept[1], 4)

        self.process = subprocess.Popen(words, preexec_fn=take_pipes, close_fds=False, stdin=subprocess.DEVNULL,
                                        stdout=subprocess.DEVNULL, stderr=subprocess.DEVNULL)
        os.close(commands)
        os.close(answers)
        self.rest, self.number, self.session = b'', 0, None
        self.problems, self.events = [], []
        target = self.call('Target.createTarget', url='about:blank')['targetId']
        self.session = self.call('Target.attachToTarget', targetId=target, flatten=True)['sessionId']
        for domain in ('Page', 'Runtime', 'Log', 'Network', 'Performance'):
            self.call(domain + '.enable')
        self.call('Browser.setDownloadBehavior', behavior='allow', downloadPath=self.room, eventsEnabled=True)

    def __enter__(self):
        return self

    def __exit__(self, *_):
        try:
            self.call('Browser.close', seconds=10)
            self.process.wait(10)
        except (BrowserError, OSError, subprocess.TimeoutExpired):
            self.process.kill()
            self.process.wait()
        for end in (self.commands, self.answers):
            os.close(end)
        shutil.rmtree(self.room, ignore_errors=True)

    # -- the protocol: texts in JSON, each ended by a zero byte

    def call(self, method, seconds=60, **parameters):
        self.number += 1
        message = {'id': self.number, 'method': method, 'params': parameters}
        if self.session and not method.startswith(('Browser.', 'Target.')):
            message['sessionId'] = self.session
        self.write(json.dumps(message).encode() + b'\0')
        end = time.monotonic() + seconds
        while True:
            answer = self.read(end)
            if answer.get('id') == self.number:
                if 'error' in answer:
                    raise BrowserError('%s: %s' % (method, answer['error']['message']))
                return answer['result']
            self.note(answer)

    def write(self, data):
        while data:
            data = data[os.write(self.commands, data):]

    def read(self, end):
        while b'\0' not in self.rest:
            if not select.select([self.answers], [], [], max(0, end - time.monotonic()))[0]:
                raise BrowserError('no answer in time')
            read = os.read(self.answers, 1 << 16)
            if not read:
                raise BrowserError('the browser ended')
            self.rest += read
        message, self.rest = self.rest.split(b'\0', 1)
        return json.loads(message)

    def note(self, event):
        """Keeps what tells of errors, requests, and the page's progress."""
        method, told = event.get('method'), event.get('params', {})
        self.events.append(method)
        if method == 'Runtime.exceptionThrown':
            details = told['exceptionDetails']
            self.problems.append('script error: ' + details.get('exception', {}).get('description', details['text']))
        elif method == 'Runtime.consoleAPICalled' and told['type'] in ('error', 'assert'):
            self.problems.append('console: %s' % told['args'])
        elif method == 'Log.entryAdded' and told['entry']['level'] in ('error', 'warning'):
            self.problems.append('%s: %s' % (told['entry']['level'], told['entry']['text']))
        elif method == 'Network.requestWillBeSent':
            url = told['request']['url']
            if not url.startswith(('file:', 'data:', 'blob:', 'about:')):
                self.problems.append('request to the network: ' + url)

    # -- the page

    def open(self, path, width=1440, height=1000, dark=False, hash_=''):
        """Opens a file, and waits until its script has run. Gives the seconds from the call to then."""
        self.call('Emulation.setDeviceMetricsOverride', width=width, height=height, deviceScaleFactor=1, mobile=False)
        self.call('Emulation.setEmulatedMedia', media='', features=[
            {'name': 'prefers-color-scheme', 'value': 'dark' if dark else 'light'}])
        self.call('Page.navigate', url='about:blank')
        begun = time.monotonic()
        self.call('Page.navigate', url='file://' + os.path.abspath(path) + hash_)
        while not self.value('document.documentElement?.dataset.opened || ""'):
            if time.monotonic() > begun + 60:
                raise BrowserError('%s: the page does not open: %s' % (path, self.problems))
            time.sleep(.02)
        # painted, too
        self.value('new Promise(done => requestAnimationFrame(() => requestAnimationFrame(() => done(1))))')
        return time.monotonic() - begun

    def value(self, script):
        """What an expression is worth in the page."""
        answer = self.call('Runtime.evaluate', expression=script, returnByValue=True, awaitPromise=True)
        if 'exceptionDetails' in answer:
            raise BrowserError(answer['exceptionDetails'].get('exception', {}).get('description', script))
        return answer['result'].get('value')

    def process_seconds(self):
        """The processor time that the page's process has taken, which other work on the machine does not lengthen."""
        metrics = self.call('Performance.getMetrics')['metrics']
        return next(metric['value'] for metric in metrics if metric['name'] == 'ProcessTime')

    def press(self, key):
        about = {'key': key, 'windowsVirtualKeyCode': KEYS[key], 'code': key if len(key) > 1 else 'Key' + key.upper()}
        text = {'text': TEXTS[key]} if key in TEXTS else {}
        self.call('Input.dispatchKeyEvent', type='keyDown', **about, **text)
        self.call('Input.dispatchKeyEvent', type='keyUp', **about)

    def click(self, id_):
        self.value('document.getElementById(%s).click()' % json.dumps(id_))

    def picture(self, path, whole=True):
        """A picture of the page as a PNG file."""
        answer = self.call('Page.captureScreenshot', format='png', captureBeyondViewport=whole)
        with open(path, 'wb') as file:
            file.write(base64.b64decode(answer['data']))

    def paper(self, path):
        """The page as a PDF file."""
        answer = self.call('Page.printToPDF', printBackground=True, preferCSSPageSize=True)
        with open(path, 'wb') as file:
            file.write(base64.b64decode(answer['data']))
