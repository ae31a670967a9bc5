"""Debian's chromium without a window, spoken to over two pipes: pages are opened, measured and printed."""
import base64
import json
import os
import select
import shutil
import subprocess
import tempfile

NAMES = ('chromium', 'chromium-browser')
PATIENCE = 300
QUIET = ['--headless', '--disable-gpu', '--hide-scrollbars', '--no-first-run', '--disable-dev-shm-usage',
         '--disable-background-networking']
NOWHERE = '--host-resolver-rules=MAP * ~NOTFOUND'


def installed():
    """The browser's file, or None."""
    return next((shutil.which(name) for name in NAMES if shutil.which(name)), None)


class Browser:
    """A browser with one page; `with Browser() as browser:` ends it. It finds no machine, but for this one where `here` is."""

    def __init__(self, here=False):
        self.rules = NOWHERE + (', EXCLUDE 127.0.0.1' if here else '')

    def __enter__(self):
        # processes of the browser may still write there when the first of them has ended
        self.folder = tempfile.TemporaryDirectory(ignore_cleanup_errors=True)
        read_by_browser, self.to_browser = os.pipe()
        self.from_browser, written_by_browser = os.pipe()
        self.process = subprocess.Popen(
            ['sh', '-c', f'exec "$0" "$@" 3<&{read_by_browser} 4>&{written_by_browser}', installed(), *QUIET, self.rules,
             *(['--no-sandbox'] if os.geteuid() == 0 else []), '--remote-debugging-pipe', f'--user-data-dir={self.folder.name}'],
            pass_fds=(read_by_browser, written_by_browser), stdout=subprocess.DEVNULL, stderr=subprocess.DEVNULL)
        os.close(read_by_browser)
        os.close(written_by_browser)
        self.held, self.events, self.told, self.number = b'', [], [], 0
        target = self.call('Target.createTarget', {'url': 'about:blank'}, session=None)['targetId']
        self.session = self.call('Target.attachToTarget', {'targetId': target, 'flatten': True}, session=None)['sessionId']
        self.call('Page.enable')
        return self

    def __exit__(self, *failure):
        os.close(self.to_browser)
        os.close(self.from_browser)
        self.process.terminate()
        self.process.wait()
        self.folder.cleanup()

    def message(self):
        """The next message of the browser."""
        while b'\0' not in self.held:
            if not select.select([self.from_browser], [], [], PATIENCE)[0]:
                raise RuntimeError(f'the browser has said nothing for {PATIENCE} seconds')
            part = os.read(self.from_browser, 1 << 20)
            if not part:
                raise RuntimeError('the browser has ended')
            self.held += part
        text, _, self.held = self.held.partition(b'\0')
        return json.loads(text)

    def call(self, method, parameters=None, session=''):
        """Asks the browser for something, and waits for its answer."""
        self.number += 1
        request = {'id': self.number, 'method': method, 'params': parameters or {}}
        if session is not None:
            request['sessionId'] = self.session
        os.write(self.to_browser, json.dumps(request).encode() + b'\0')
        while True:
            answer = self.message()
            if answer.get('id') == self.number:
                if 'error' in answer:
                    raise RuntimeError(f'{method}: {answer["error"]["message"]}')
                return answer['result']
            self.keep(answer)

    def keep(self, event):
        """Keeps what the browser tells unasked."""
        self.events.append(event.get('method'))
        self.told.append(event)

    def width(self, pixels, medium='screen', scheme='light', height=900):
        """The width of the page, on the screen or as it is laid out for print, in light or dark."""
        self.call('Emulation.setDeviceMetricsOverride', {'width': pixels, 'height': height, 'deviceScaleFactor': 1, 'mobile': False})
        self.call('Emulation.setEmulatedMedia', {'media': medium, 'features': [{'name': 'prefers-color-scheme', 'value': scheme}]})

    def open(self, path):
        """Opens a file, or an address, and waits until it is there."""
        self.events.clear()
        self.told.clear()
        self.call('Page.navigate', {'url': path if isinstance(path, str) else path.resolve().as_uri()})
        while 'Page.loadEventFired' not in self.events:
            self.keep(self.message())

    def evaluate(self, text):
        """The value of a text of JavaScript on the page, or of its promise."""
        answer = self.call('Runtime.evaluate', {'expression': text, 'returnByValue': True, 'awaitPromise': True})
        if 'exceptionDetails' in answer:
            raise RuntimeError(answer['exceptionDetails'].get('text', 'the page could not be measured'))
        return answer['result'].get('value')

    def choose(self, selector, *paths):
        """Puts files into an input of the page."""
        root = self.call('DOM.getDocument')['root']['nodeId']
        node = self.call('DOM.querySelector', {'nodeId': root, 'selector': selector})['nodeId']
        self.call('DOM.setFileInputFiles', {'nodeId': node, 'files': [str(path) for path in paths]})

    def picture(self, whole=False, clip=None):
        """The page as a PNG: what the window shows, all of it, or a part of it."""
        asked = {'format': 'png', 'captureBeyondViewport': whole, **({'clip': {**clip, 'scale': 1}} if clip else {})}
        return base64.b64decode(self.call('Page.captureScreenshot', asked)['data'])

    def printed(self):
        """The page as a PDF on paper of the size that its style sheet says."""
        return base64.b64decode(self.call('Page.printToPDF', {'preferCSSPageSize': True})['data'])
