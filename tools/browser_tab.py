"""A tab of a browser with cookies of its own, used by the keyboard, as a clerk uses it."""
import json, time

KEYS = {'Tab': (9, ''), 'Enter': (13, '\r'), ' ': (32, ' '), 'Escape': (27, ''), 'Backspace': (8, '')}
DOMAINS = ('Page', 'Network', 'Log', 'Runtime')


class Tab:
    """A tab of a `browser.Browser`."""

    def __init__(self, led):
        self.led = led
        led.session = None
        context = led.call('Target.createBrowserContext')['browserContextId']
        target = led.call('Target.createTarget', url='about:blank', browserContextId=context)['targetId']
        self.session = led.call('Target.attachToTarget', targetId=target, flatten=True)['sessionId']
        self.asked, self.said, self.fetches = [], [], set()
        # How many keys were pressed, and how many pages were loaded.
        self.keys = self.pages = 0
        for domain in DOMAINS:
            self.call(f'{domain}.enable')
        self.call('Emulation.setFocusEmulationEnabled', enabled=True)
        self.look(1280)

    def call(self, method, **parameters):
        self.led.session = self.session
        return self.led.call(method, **parameters)

    def __getattr__(self, name):
        """What a browser can do with its one page, with this tab as the page."""
        if name not in ('look', 'ask', 'run', 'picture'):
            raise AttributeError(name)
        self.led.session = self.session
        return getattr(self.led, name)

    def take_events(self):
        """Takes the events of this tab: whether it has loaded, what it fetched, of what the browser complains."""
        mine = [it for it in self.led.events if it.get('sessionId') == self.session]
        self.led.events = [it for it in self.led.events if it.get('sessionId') != self.session]
        for it in mine:
            if it['method'] == 'Network.requestWillBeSent':
                self.asked.append(it['params']['request']['url'])
                self.fetches |= {it['params']['requestId']} if it['params']['type'] == 'Fetch' else set()
            elif it['method'] == 'Log.entryAdded':
                self.said.append(it['params']['entry']['text'])
            elif it['method'] == 'Runtime.exceptionThrown':
                self.said.append(json.dumps(it['params']['exceptionDetails']))
        loads = sum(it['method'] == 'Page.loadEventFired' for it in mine)
        self.pages += loads
        return loads or any(it['method'].startswith('Network.loadingF')
                            and it['params']['requestId'] in self.fetches for it in mine)

    def loaded(self, act):
        """Does something, and waits until what it leads to is loaded, or has taken the place of what was shown."""
        self.take_events()
        act()
        while not self.take_events():
            self.led.events.append(self.led._message())
        until = time.monotonic() + 120
        waits = ('document.querySelector("main[inert]") !== null || document.activeElement === document.body '
                 '&& !!document.querySelector("[autofocus]")')
        while self.ask(waits) and time.monotonic() < until:
            time.sleep(0.02)

    def open(self, url):
        self.loaded(lambda: self.call('Page.navigate', url=url))

    def reload(self):
        self.loaded(lambda: self.call('Page.reload'))

    def press(self, key, loads=False, **more):
        """Presses a key and lets it go; it may lead to another page. A `timestamp` says when that is."""
        code, text = KEYS.get(key) or (ord(key.upper()), key)
        self.keys += 1

        def act():
            self.call('Input.dispatchKeyEvent', type='keyDown', key=key, code=key, windowsVirtualKeyCode=code,
                      text=text, **more)
            try:
                self.call('Input.dispatchKeyEvent', type='keyUp', key=key, code=key, windowsVirtualKeyCode=code)
            except SystemExit:
                pass
        self.loaded(act) if loads else act()

    def scan(self, text, apart=0.01):
        """Presses the keys of a text and Enter, as many seconds apart: by a scanner, or by a hand. The browser is told when each
        key came, so that it matters not how fast this runs."""
        begun = time.time()
        for at, key in enumerate([*text, 'Enter']):
            self.press(key, timestamp=begun + at * apart)

    def enter(self, loads=True):
        self.press('Enter', loads)

    def type(self, text):
        """Types into the field that has the focus."""
        self.keys += len(text)
        self.call('Input.insertText', text=text)

    def tab_to(self, name):
        """Presses Tab until the element with this id has the focus."""
        for _ in range(40):
            if self.focus() == name:
                return
            self.press('Tab')
        raise AssertionError(f'Tab never comes to {name}')

    def press_button(self, words, loads=True):
        """Presses Tab until a button with these words has the focus, and then Enter."""
        for _ in range(60):
            if self.focus() == words:
                return self.enter(loads)
            self.press('Tab')
        raise AssertionError(f'Tab never comes to {words}')

    def focus(self):
        """The id of what has the focus, or its text."""
        return self.ask('document.activeElement.id || document.activeElement.textContent.trim()')

    def text(self, selector='body'):
        return ' '.join(self.ask(f'(document.querySelector({json.dumps(selector)}) || {{innerText: ""}}).innerText').split())

    def complaints(self):
        self.take_events()
        return [it for it in self.said if 'status of 4' not in it]

    def fetched(self, window):
        """What was asked for from elsewhere, or with more than a path."""
        self.take_events()
        here = f'http://127.0.0.1:{window.port}/'
        return [it for it in self.asked if it not in ('data:,', 'about:blank') and (not it.startswith(here) or '?' in it or '%' in it)]
