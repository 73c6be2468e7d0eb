"""A headless Chromium, driven by chromedriver over WebDriver (W3C), and a server for the page."""
import base64
import functools
import http.server
import json
import pathlib
import re
import shutil
import subprocess
import threading
import time
import urllib.request

ELEMENT = 'element-6066-11e4-a52e-4f735466cecf'
ARGUMENTS = ['--headless=new', '--no-sandbox', '--disable-gpu', '--disable-dev-shm-usage', '--hide-scrollbars', '--window-size=1100,1400']


class Handler(http.server.SimpleHTTPRequestHandler):
    """The page's folder at /, and this one at /tests/."""
    here = pathlib.Path(__file__).resolve().parent
    extensions_map = {**http.server.SimpleHTTPRequestHandler.extensions_map, '.js': 'text/javascript', '.wasm': 'application/wasm'}
    asked = []

    def translate_path(self, path):
        path = path.split('?')[0]
        if path.startswith('/tests/'):
            return str(self.here / path[len('/tests/'):])
        return super().translate_path(path)

    def log_message(self, *_):
        Handler.asked.append(self.path)


def serve(folder, port=0):
    server = http.server.ThreadingHTTPServer(('127.0.0.1', port), functools.partial(Handler, directory=folder))
    threading.Thread(target=server.serve_forever, daemon=True).start()
    return f'http://localhost:{server.server_port}'


class Browser:
    def __init__(self, downloads, patience=1, debugger=None):
        """patience: how many times as long a slow machine is waited for. debugger: the address of a browser that runs already."""
        self.patience = patience
        self.driver = subprocess.Popen(['chromedriver', '--port=0'], stdout=subprocess.PIPE, stderr=subprocess.STDOUT, text=True)
        line = next(line for line in self.driver.stdout if 'started successfully on port' in line)
        self.at = f"http://127.0.0.1:{re.search(r'port ([0-9]+)', line)[1]}"
        threading.Thread(target=self.driver.stdout.read, daemon=True).start()
        options = {'binary': shutil.which('chromium'), 'args': ARGUMENTS, 'prefs': {'download.default_directory': downloads}}
        if debugger is not None:
            options = {'debuggerAddress': debugger}
        wanted = {'browserName': 'chrome', 'goog:chromeOptions': options, 'goog:loggingPrefs': {'browser': 'ALL'}}
        made = self.post('/session', {'capabilities': {'alwaysMatch': wanted}})
        self.at += f"/session/{made['sessionId']}"
        self.post('/timeouts', {'script': 300000 * patience})
        self.cdp('Browser.setDownloadBehavior', behavior='allow', downloadPath=downloads)

    def post(self, path, body=None, method='POST'):
        data = None if method != 'POST' else json.dumps(body or {}).encode()
        request = urllib.request.Request(self.at + path, data=data, method=method, headers={'Content-Type': 'application/json'})
        try:
            with urllib.request.urlopen(request, timeout=400 * self.patience) as answer:
                return json.load(answer)['value']
        except urllib.error.HTTPError as error:
            raise RuntimeError(f'{path}: {error.read().decode()[:1000]}') from error

    def quit(self):
        self.post('', method='DELETE')
        self.driver.terminate()
        self.driver.wait(10)

    def open(self, address):
        self.post('/url', {'url': address})

    def run(self, script, *words):
        return self.post('/execute/sync', {'script': script, 'args': words})

    def wait_run(self, script, *words):
        """The value of a promise."""
        script = f'const words = Array.from(arguments), done = words.pop(); ({script})(...words).then(done, e => done(String(e.stack)))'
        return self.post('/execute/async', {'script': script, 'args': words})

    def cdp(self, command, **words):
        return self.post('/goog/cdp/execute', {'cmd': command, 'params': words})

    def element(self, selector):
        return self.post('/element', {'using': 'css selector', 'value': selector})[ELEMENT]

    def click(self, selector):
        self.post(f'/element/{self.element(selector)}/click')

    def type(self, selector, text):
        self.post(f'/element/{self.element(selector)}/value', {'text': text})

    def key(self, *keys):
        actions = [one for key in keys for one in ({'type': 'keyDown', 'value': key}, {'type': 'keyUp', 'value': key})]
        self.post('/actions', {'actions': [{'type': 'key', 'id': 'keys', 'actions': actions}]})

    def role(self, selector):
        at = self.element(selector)
        return [self.post(f'/element/{at}/{what}', method='GET') for what in ('computedrole', 'computedlabel')]

    def size(self, width, height):
        self.cdp('Emulation.setDeviceMetricsOverride', width=width, height=height, deviceScaleFactor=1, mobile=False)

    def dark(self, is_dark):
        self.cdp('Emulation.setEmulatedMedia', features=[{'name': 'prefers-color-scheme', 'value': 'dark' if is_dark else 'light'}])

    def shot(self, name, most=1150, scale=0.75):
        """The page from its top on, smaller."""
        width, height = self.run('scrollTo(0, 0); return [innerWidth, document.body.scrollHeight]')
        clip = {'x': 0, 'y': 0, 'width': width, 'height': min(height, most), 'scale': scale}
        picture = self.cdp('Page.captureScreenshot', format='png', clip=clip, captureBeyondViewport=True)
        pathlib.Path(name).write_bytes(base64.b64decode(picture['data']))

    def console(self):
        """Errors and warnings since the last call."""
        return [one['message'] for one in self.post('/se/log', {'type': 'browser'}) if one['level'] in ('SEVERE', 'WARNING')]

    def wait(self, script, seconds=30):
        end = time.time() + seconds * self.patience
        while time.time() < end:
            found = self.run('return ' + script)
            if found:
                return found
            time.sleep(0.03)
        raise RuntimeError(f'waited {seconds} s in vain: {script}')
