"""A browser over the W3C WebDriver protocol, with urllib alone: with Browser(width, height) as b: b.open(path); b.click('#save') .."""
import base64
import json
import pathlib
import shutil
import socket
import subprocess
import tempfile
import time
import urllib.error
import urllib.request

ELEMENT = 'element-6066-11e4-a52e-4f735466cecf'
CONTROL, SHIFT, ENTER, DELETE, RIGHT, DOWN, ESCAPE = '\ue009', '\ue008', '\ue007', '\ue017', '\ue014', '\ue015', '\ue00c'
BROWSERS, DRIVER = ('chromium', 'chromium-browser', 'google-chrome'), 'chromedriver'
PACKAGES = {'chromium': BROWSERS, 'chromium-driver': (DRIVER,)}  # of Debian, each with the programs of which it has one
ARGUMENTS = ('--headless=new', '--no-sandbox', '--disable-gpu', '--disable-dev-shm-usage', '--hide-scrollbars', '--force-device-scale-factor=1')


def missing():
    """The packages that are not installed."""
    return [package for package, programs in PACKAGES.items() if not any(map(shutil.which, programs))]


class Browser:
    def __init__(self, width=1440, height=900, dark=False, before=''):
        with socket.socket() as free:
            free.bind(('127.0.0.1', 0))
            self.port = free.getsockname()[1]
        self.folder = tempfile.TemporaryDirectory(ignore_cleanup_errors=True)
        self.driver = subprocess.Popen([DRIVER, f'--port={self.port}', '--log-level=OFF'], stdout=subprocess.DEVNULL, stderr=subprocess.DEVNULL)
        options = {'args': [*ARGUMENTS, f'--window-size={width},{height}', f'--user-data-dir={self.folder.name}/profile'],
                   'binary': next(filter(None, map(shutil.which, BROWSERS))), 'prefs': {'download.default_directory': self.folder.name}}
        self.base = ''
        self.wait_for_driver()
        logged = {'browser': 'ALL', 'performance': 'ALL'}
        capabilities = {'alwaysMatch': {'browserName': 'chrome', 'goog:chromeOptions': options, 'goog:loggingPrefs': logged}}
        # the address is W3C WebDriver's own
        self.base = f"/session/{self.ask('POST', '/session', {'capabilities': capabilities})['sessionId']}"
        self.ask('POST', '/timeouts', {'script': 60000})
        self.look(width, height, dark)
        if before:
            self.cdp('Page.addScriptToEvaluateOnNewDocument', source=before)

    def wait_for_driver(self):
        for _ in range(200):
            try:
                return urllib.request.urlopen(f'http://127.0.0.1:{self.port}/status', timeout=2).read()
            except OSError:
                time.sleep(0.05)
        raise RuntimeError(f'{DRIVER} does not answer')

    def look(self, width, height, dark):
        """Sets the page's size and theme by the DevTools protocol, which the driver hands on: a window is never narrower than 500. Nothing glides."""
        self.cdp('Emulation.setDeviceMetricsOverride', width=width, height=height, deviceScaleFactor=1, mobile=False)
        theme, still = {'name': 'prefers-color-scheme', 'value': 'dark' if dark else 'light'}, {'name': 'prefers-reduced-motion', 'value': 'reduce'}
        self.cdp('Emulation.setEmulatedMedia', features=[theme, still])

    def __enter__(self):
        return self

    def __exit__(self, *_):
        try:
            self.ask('DELETE', '')
        finally:
            self.driver.terminate()
            self.driver.wait(10)
            self.folder.cleanup()

    def ask(self, method, path, body=None):
        content = json.dumps(body or {}).encode() if method == 'POST' else None
        request = urllib.request.Request(f'http://127.0.0.1:{self.port}{self.base}{path}', content, {'Content-Type': 'application/json'}, method=method)
        try:
            with urllib.request.urlopen(request, timeout=120) as answer:
                return json.load(answer)['value']
        except urllib.error.HTTPError as error:
            raise RuntimeError(json.load(error)['value']['message'].split('\n')[0]) from None

    def cdp(self, command, **parameters):
        return self.ask('POST', '/goog/cdp/execute', {'cmd': command, 'params': parameters})

    def open(self, path, is_ready='return document.documentElement.dataset.ready'):
        self.ask('POST', '/url', {'url': pathlib.Path(path).resolve().as_uri()})
        self.until(is_ready, 'the page is not ready')

    def until(self, script, words, seconds=20):
        """Waits until a script returns something."""
        end = time.monotonic() + seconds
        while time.monotonic() < end:
            if found := self.run(script):
                return found
            time.sleep(0.02)
        raise RuntimeError(f'{words}: {json.dumps(self.log())}')

    def run(self, script, *arguments):
        return self.ask('POST', '/execute/sync', {'script': script, 'args': list(arguments)})

    def wait(self, script, *arguments):
        """Runs a script whose last argument is to be called with what it finds."""
        return self.ask('POST', '/execute/async', {'script': script, 'args': list(arguments)})

    def find(self, css):
        return self.ask('POST', '/element', {'using': 'css selector', 'value': css})[ELEMENT]

    def click(self, css):
        self.run("document.querySelector(arguments[0]).scrollIntoView({ block: 'center' })", css)  # the driver does not scroll from under a sticky header
        self.ask('POST', f'/element/{self.find(css)}/click')

    def type(self, css, text):
        self.ask('POST', f'/element/{self.find(css)}/value', {'text': text})

    def centre(self, css):
        return self.run("""const r = document.querySelector(arguments[0]).getBoundingClientRect();
            return [Math.round(r.x + r.width / 2), Math.round(r.y + r.height / 2)]""", css)

    def actions(self, *sources):
        self.ask('POST', '/actions', {'actions': list(sources)})

    def drag(self, start, end, key=None, steps=6):
        """From a point to a point, in steps, a key held down if one is given."""
        points = [[round(a + (b - a) * i / steps) for a, b in zip(start, end)] for i in range(steps + 1)]
        moves = [{'type': 'pointerMove', 'x': x, 'y': y, 'duration': 10 if i else 0} for i, (x, y) in enumerate(points)]
        pointer = [moves[0], {'type': 'pointerDown', 'button': 0}, *moves[1:], {'type': 'pointerUp', 'button': 0}]
        sources = [{'type': 'pointer', 'id': 'mouse', 'parameters': {'pointerType': 'mouse'}, 'actions': pointer}]
        if key:
            pauses = [{'type': 'pause', 'duration': 0}] * (len(pointer) - 2)
            sources.append({'type': 'key', 'id': 'keys', 'actions': [{'type': 'keyDown', 'value': key}, *pauses, {'type': 'keyUp', 'value': key}]})
        self.actions(*sources)
        self.ask('DELETE', '/actions')

    def keys(self, *keys, held=None):
        presses = [{'type': kind, 'value': key} for key in keys for kind in ('keyDown', 'keyUp')]
        around = ([{'type': 'keyDown', 'value': held}], [{'type': 'keyUp', 'value': held}]) if held else ([], [])
        self.actions({'type': 'key', 'id': 'keys', 'actions': [*around[0], *presses, *around[1]]})

    def log(self, kind='browser'):
        return self.ask('POST', '/se/log', {'type': kind})

    def requests(self):
        """Every address that the page asked for."""
        messages = [json.loads(entry['message'])['message'] for entry in self.log('performance')]
        return [message['params']['request']['url'] for message in messages if message['method'] == 'Network.requestWillBeSent']

    def saved(self, name, seconds=10):
        """The content of a file that the page saved."""
        file = pathlib.Path(self.folder.name) / name
        end = time.monotonic() + seconds
        while not file.exists() or file.with_name(f'{name}.crdownload').exists():
            if time.monotonic() > end:
                raise RuntimeError(f'{name} was not saved')
            time.sleep(0.05)
        return file.read_bytes().decode()

    def screenshot(self, path):
        pathlib.Path(path).write_bytes(base64.b64decode(self.ask('GET', '/screenshot')))
