"""A browser without a window, led through a pipe by the DevTools protocol."""
import base64, collections, json, os, select, shutil, subprocess, tempfile

# How many seconds a step of an installation, and an answer of the browser, may take.
INSTALLS, ANSWERS = 900, 300
NAMES = ['chromium', 'chromium-browser', 'google-chrome']


def installed():
    """The path of a browser, or None."""
    return next((path for path in map(shutil.which, NAMES) if path), None)


def install(*more):
    """Installs a browser of the distribution, and more packages, where this runs as root and apt-get is there."""
    if os.geteuid() != 0 or not shutil.which('apt-get'):
        return
    environment = {**os.environ, 'DEBIAN_FRONTEND': 'noninteractive'}
    for words in ('update', 'install -y --no-install-recommends chromium fonts-dejavu-core'):
        try:
            subprocess.run(['apt-get', '-qq', *words.split(), *(more if words != 'update' else [])], env=environment, stdin=subprocess.DEVNULL,
                           stdout=subprocess.DEVNULL, stderr=subprocess.DEVNULL, timeout=INSTALLS)
        except subprocess.TimeoutExpired:
            return


class NoBrowser(Exception):
    """A browser that is installed does not run here: it has ended, or does not answer."""


class Browser:
    """A browser that runs; as a context it is stopped at the end."""

    def __init__(self, path):
        self.folder = tempfile.TemporaryDirectory(ignore_cleanup_errors=True)
        read_here, write_there = os.pipe()
        read_there, write_here = os.pipe()
        # The browser reads from its descriptor 3, and writes to 4. Ours are first moved out of their way.
        ends = [os.dup2(end, 100 + at) for at, end in enumerate((read_there, write_there))]

        def place():
            os.dup2(ends[0], 3)
            os.dup2(ends[1], 4)

        self.process = subprocess.Popen(
            [path, '--headless=new', '--no-sandbox', '--disable-gpu', '--hide-scrollbars', '--remote-debugging-pipe',
             '--disable-dev-shm-usage', '--no-first-run', '--disable-background-networking', f'--user-data-dir={self.folder.name}', 'about:blank'],
            preexec_fn=place, close_fds=False, stdin=subprocess.DEVNULL, stdout=subprocess.DEVNULL,
            stderr=subprocess.DEVNULL)
        for end in (read_there, write_there, *ends):
            os.close(end)
        self.reader, self.writer = os.fdopen(read_here, 'rb'), os.fdopen(write_here, 'wb')
        self.number, self.events, self.rest, self.session = 0, [], b'', None
        page = next(it for it in self.call('Target.getTargets')['targetInfos'] if it['type'] == 'page')
        self.session = self.call('Target.attachToTarget', targetId=page['targetId'], flatten=True)['sessionId']

    def __enter__(self):
        return self

    def __exit__(self, *_):
        self.process.kill()
        self.process.wait()
        self.folder.cleanup()

    def _message(self):
        """The next message of the browser."""
        while b'\0' not in self.rest:
            if not select.select([self.reader], [], [], ANSWERS)[0]:
                raise NoBrowser('does not answer')
            more = os.read(self.reader.fileno(), 1 << 20)
            if not more:
                raise NoBrowser('has ended')
            self.rest += more
        message, self.rest = self.rest.split(b'\0', 1)
        return json.loads(message)

    def call(self, method, **parameters):
        """Calls a method, and gives its result. Events that come meanwhile are kept."""
        self.number += 1
        call = {'id': self.number, 'method': method, 'params': parameters}
        if self.session:
            call['sessionId'] = self.session
        try:
            self.writer.write(json.dumps(call).encode() + b'\0')
            self.writer.flush()
        except BrokenPipeError:
            raise NoBrowser('has ended') from None
        while True:
            message = self._message()
            if message.get('id') == self.number:
                if 'error' in message:
                    raise SystemExit(f"{method}: {message['error']['message']}")
                return message['result']
            self.events.append(message)

    def wait(self, method):
        """Waits for an event."""
        while not any(it.get('method') == method for it in self.events):
            self.events.append(self._message())

    def open(self, url):
        """Opens a page, and gives the events until it is loaded."""
        for domain in ('Page', 'Network', 'Debugger', 'Log', 'Runtime'):
            self.call(f'{domain}.enable')
        self.events = []
        self.call('Page.navigate', url=url)
        self.wait('Page.loadEventFired')
        return self.events

    def look(self, width, dark=False, media='screen'):
        """Shows the page at a width in pixels, in light or dark colours, on a screen or in print."""
        self.call('Emulation.setDeviceMetricsOverride', width=width, height=800, deviceScaleFactor=1, mobile=False)
        self.call('Emulation.setEmulatedMedia', media=media,
                  features=[{'name': 'prefers-color-scheme', 'value': 'dark' if dark else 'light'}])

    def ask(self, expression):
        """The value of an expression in the page, in a world of its own beside the page's."""
        frame = self.call('Page.getFrameTree')['frameTree']['frame']['id']
        world = self.call('Page.createIsolatedWorld', frameId=frame, worldName='looking')['executionContextId']
        found = self.call('Runtime.evaluate', expression=expression, contextId=world, returnByValue=True)
        if 'exceptionDetails' in found:
            raise SystemExit(f"looking failed: {found['exceptionDetails']['exception'].get('description')}")
        return found['result']['value']

    def run(self, expression):
        """The value of an expression in the page's own world; of a promise, what it promises."""
        found = self.call('Runtime.evaluate', expression=expression, awaitPromise=True, returnByValue=True)
        if 'exceptionDetails' in found:
            raise SystemExit(f"running failed: {found['exceptionDetails']['exception'].get('description')}")
        return found['result'].get('value')

    def choose(self, selector, path):
        """Chooses a file in an input of the page."""
        root = self.call('DOM.getDocument')['root']['nodeId']
        node = self.call('DOM.querySelector', nodeId=root, selector=selector)['nodeId']
        self.call('DOM.setFileInputFiles', nodeId=node, files=[str(path)])

    def press(self, key, text=''):
        """Presses a key, and lets it go."""
        code = {'Tab': 9, 'Enter': 13, ' ': 32}[key]
        self.call('Input.dispatchKeyEvent', type='keyDown', key=key, windowsVirtualKeyCode=code, text=text)
        self.call('Input.dispatchKeyEvent', type='keyUp', key=key, windowsVirtualKeyCode=code)

    def roles(self):
        """How often each role stands in what a screen reader gets."""
        nodes = self.call('Accessibility.getFullAXTree')['nodes']
        return collections.Counter(node['role']['value'] for node in nodes if not node['ignored'])

    def picture(self, path, most=12_000):
        """Writes the page as a picture, at most so many pixels of its height."""
        size = self.call('Page.getLayoutMetrics')['cssContentSize']
        clip = {'x': 0, 'y': 0, 'width': size['width'], 'height': min(size['height'], most), 'scale': 1}
        shot = self.call('Page.captureScreenshot', format='png', captureBeyondViewport=True, clip=clip)
        path.write_bytes(base64.b64decode(shot['data']))

    def printed(self, path):
        """Writes the page as it is printed."""
        paper = self.call('Page.printToPDF', printBackground=False, preferCSSPageSize=True)
        path.write_bytes(base64.b64decode(paper['data']))
