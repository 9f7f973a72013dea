"""The clerks' window as tools/try_window runs it, and clerks who use it without a browser."""
import csv, fcntl, html, http.client, json, os, pathlib, pty, re, secrets, select, signal, socket, subprocess, sys, termios
import time, urllib.parse

TOP = pathlib.Path(__file__).resolve().parent.parent
PYTHON = '/usr/bin/python3'
# The Debian packages that the window needs.
PACKAGES = ['python3-flask', 'python3-cheroot']
RUN, CLERKS = TOP / 'window/run.py', TOP / 'window/clerks.py'
sys.path.append(str(TOP / 'window'))
import clerks

# Runs run.py where this has been done before.
SCRIPT = f'''import os, signal, sys
sys.dont_write_bytecode = True
sys.path.insert(0, {str(TOP / 'window')!r})
%s
import run
%s
run.main()
'''
# How many seconds anything here may take.
LIMIT = 600


def until(is_so, seconds=LIMIT):
    """Waits until something is so, for some seconds at most."""
    end = time.monotonic() + seconds
    while not is_so() and time.monotonic() < end:
        time.sleep(0.05)
    return is_so()


def stop(number):
    """Stops a process, and waits until it stands still: on a machine with much to do its threads may go on for a moment."""
    def stands_still():
        try:
            return all(') T ' in path.read_text() for path in pathlib.Path(f'/proc/{number}/task').glob('*/stat'))
        except OSError:     # A thread has ended meanwhile.
            return False
    os.kill(number, signal.SIGSTOP)
    until(stands_still)


def passphrase_of(name):
    return f'a long passphrase of {name}'


def lacks():
    """What is missing to run the window, or None."""
    done = subprocess.run([PYTHON, '-c', 'import cheroot, flask'], capture_output=True) if os.path.exists(PYTHON) else None
    return None if done and not done.returncode else "Debian's python3-flask and python3-cheroot are not installed"


def free_port():
    with socket.socket() as it:
        it.bind(('127.0.0.1', 0))
        return it.getsockname()[1]


def typed_at_terminal(command, answers):
    """Runs a command at a terminal of its own: types an answer whenever it asks, or what a function among
    them gives then. Gives what it wrote, and its status."""
    child, terminal = pty.fork()
    if not child:
        os.execv(command[0], [str(word) for word in command])
    written, answers = b'', list(answers)
    while True:
        try:
            more = os.read(terminal, 4096) if select.select([terminal], [], [], LIMIT)[0] else b''
        except OSError:
            more = b''
        if not more:
            break
        written += more
        if more.endswith(b': ') and answers:
            answer = answers.pop(0)
            os.write(terminal, (answer() if callable(answer) else answer).encode() + b'\n')
    os.close(terminal)
    return written.decode(), os.waitstatus_to_exitcode(os.waitpid(child, 0)[1])


def make_clerks(path, names):
    """The file of these clerks, each with the passphrase that `passphrase_of` gives, as clerks.py writes it."""
    salt = secrets.token_hex(16)
    clerks.save(path, [{'number': number, 'name': name, 'salt': salt, 'hash': clerks.hashed(passphrase_of(name), salt)}
                       for number, name in enumerate(names)])


class Window:
    """A window that runs. It goes on with the files of its folder."""

    def __init__(self, program, folder, file='city.pb', options=(), run=RUN):
        self.program, self.folder, self.options, self.run = program, folder, [str(it) for it in options], run
        self.file, self.journal, self.port = folder / file, folder / 'city.journal', free_port()
        self.child = None

    def start(self, is_awaited=True):
        words = [PYTHON, self.run, self.file, self.journal, '--clerks', self.folder / 'clerks.json', '--program', self.program,
                 '--listen', f'127.0.0.1:{self.port}', *self.options]
        self.child = subprocess.Popen([str(word) for word in words], cwd=self.folder, stdin=subprocess.DEVNULL,
                                      stdout=subprocess.PIPE, stderr=subprocess.STDOUT, text=True, start_new_session=True)
        if is_awaited:
            assert select.select([self.child.stdout], [], [], LIMIT)[0], 'the window does not start'
            self.first, self.told = self.child.stdout.readline(), ''    # What it tells before it is open.
            while self.first and 'is open at' not in self.first:
                self.first, self.told = self.child.stdout.readline(), self.told + self.first
            assert self.first, self.told
        return self

    def end(self, number=signal.SIGINT):
        """Ends the window by a signal: gives what it wrote after its first line, and its status."""
        self.child.send_signal(number)
        said = self.child.communicate(timeout=LIMIT)[0]
        return said, self.child.returncode

    def serves(self):
        """The processes that the window has started."""
        threads = pathlib.Path(f'/proc/{self.child.pid}/task').glob('*/children')
        return sorted({int(word) for path in threads for word in path.read_text().split()})

    def serve_id(self):
        """The process of the `serve` that has the journal."""
        has_journal = lambda number: str(self.journal) in pathlib.Path(f'/proc/{number}/cmdline').read_text().split('\0')
        return next(filter(has_journal, self.serves()), None)

    def processor_time(self):
        """How many seconds of a processor the window has taken, without `serve`."""
        fields = pathlib.Path(f'/proc/{self.child.pid}/stat').read_text().rpartition(')')[2].split()
        return (int(fields[11]) + int(fields[12])) / os.sysconf('SC_CLK_TCK')

    def kill_serve(self):
        number = self.serve_id()
        os.kill(number, signal.SIGKILL)
        while os.path.exists(f'/proc/{number}'):
            time.sleep(0.02)

    def entries(self):
        """The rows of the journal."""
        with open(self.journal, encoding='utf-8', newline='') as text:
            return [row for row in csv.reader(text, delimiter=';') if row and row[0] != 'journal']

    def log(self):
        return [json.loads(line) for line in pathlib.Path(f'{self.journal}.log').read_text().splitlines() if line]

    def await_asked(self, voter):
        """Waits until a request for this voter stands in the log, and has been sent to a `serve` that is stopped."""
        until(lambda: any(it['what'] == 'asked' and it['voter'] == voter for it in self.log()))
        with open(f'/proc/{self.serve_id()}/fd/0', 'rb') as pipe:
            until(lambda: any(fcntl.ioctl(pipe, termios.FIONREAD, bytes(4))))

    def audit(self, *options):
        return subprocess.run([self.program, 'audit', self.file, self.journal, *options], capture_output=True, text=True)

    def __enter__(self):
        return self

    def __exit__(self, *_):
        if self.child and self.child.poll() is None:
            self.child.kill()
            self.child.communicate()


class Answer:
    """What the window answered: a status, its headers, its text and the fields of its forms."""

    def __init__(self, response):
        self.status, self.headers, self.body = response.status, response.headers, response.read()
        self.text = self.body.decode(errors='replace')
        self.seen = re.sub(r'\s+', ' ', html.unescape(re.sub(r'<[^>]*>', '', self.text)))

    def field(self, name, form=''):
        """The value of a hidden field, in the form with this action."""
        part = re.search(rf'<form[^>]*action="{form}".*?</form>', self.text, re.S)[0] if form else self.text
        found = re.search(rf'name="{name}" value="([^"]*)"', part)
        return html.unescape(found[1]) if found else None


class Clerk:
    """A clerk without a browser, from an address of its own."""
    patience = LIMIT    # How many seconds a page may take.

    def __init__(self, window, address='127.0.0.1', tls=None):
        self.window, self.address, self.cookies, self.token, self.tls = window, address, {}, '', tls
        self.host = f'127.0.0.1:{window.port}'
        self.origin = f"{'https' if tls else 'http'}://{self.host}"

    def send(self, method, path, body=None, headers=None):
        given = {'Host': self.host, 'Cookie': '; '.join(f'{key}={it}' for key, it in self.cookies.items())}
        if method == 'POST':
            given |= {'Origin': self.origin, 'Content-Type': 'application/x-www-form-urlencoded'}
        given |= headers or {}
        kind = http.client.HTTPSConnection if self.tls else http.client.HTTPConnection
        more = {'context': self.tls} if self.tls else {}
        link = kind('127.0.0.1', self.window.port, timeout=self.patience, source_address=(self.address, 0), **more)
        link.request(method, path, body, {key: it for key, it in given.items() if it is not None})
        answer = Answer(link.getresponse())
        link.close()
        for line in answer.headers.get_all('Set-Cookie') or []:
            key, value = line.split(';')[0].split('=', 1)
            self.cookies[key] = value
        self.token = answer.field('token') or self.token
        return answer

    def get(self, path, **headers):
        return self.send('GET', path, headers=headers)

    def post(self, path, fields, headers=None):
        """Posts a form with the token of the last page; a list of pairs may repeat a name."""
        pairs = [*(fields.items() if isinstance(fields, dict) else fields), ('token', self.token)]
        return self.send('POST', path, urllib.parse.urlencode(pairs), headers)

    def sign_in(self, name, passphrase=None):
        self.get('/')
        answer = self.post('/sign-in', {'name': name, 'passphrase': passphrase_of(name) if passphrase is None else passphrase})
        return self.get('/') if answer.status == 303 else answer

    def look(self, request, voter, ids=()):
        """Goes as far as the page that asks to look once more."""
        page = self.post('/voter', {'voter': voter})
        fields = [('voter', voter), ('seen', page.field('seen', '/look') or ''), ('request', request)]
        return self.post('/look', fields + [('id', it) for it in ids])

    def record(self, page):
        return self.post('/record', {'form': page.field('form'), 'seen': page.field('seen')})

    def ask(self, request, voter, ids=()):
        return self.record(self.look(request, voter, ids))


def at_terminal(window, passphrase, words=None, seconds=LIMIT):
    """Starts a window at a terminal of its own, and types this passphrase when it asks: gives what it has written when it is open
    or has ended, and its status, None where it is open."""
    ours, theirs = pty.openpty()
    words = words or [window.file, window.journal, '--clerks', window.folder / 'clerks.json', '--listen', f'127.0.0.1:{window.port}',
                      *window.options]
    child = subprocess.Popen([str(it) for it in (PYTHON, '-B', RUN, *words, '--program', window.program)], cwd=window.folder, stdin=theirs,
                             stdout=theirs, stderr=theirs, start_new_session=True)
    os.close(theirs)
    text, end, is_typed = '', time.monotonic() + seconds, False
    while 'is open at' not in text and time.monotonic() < end:
        try:
            text += os.read(ours, 4096).decode() if select.select([ours], [], [], 1)[0] else ''
        except OSError:
            break
        if text.endswith('the passphrase: ') and not is_typed:
            os.write(ours, passphrase.encode() + b'\n')
            is_typed = True
    window.child, window.terminal = child, ours
    return text, None if 'is open at' in text else child.wait(LIMIT)


def ended(window):
    """Ends a window at a terminal: gives what it wrote, and its status."""
    window.child.send_signal(signal.SIGINT)
    text = ''
    try:
        while more := os.read(window.terminal, 4096):
            text += more.decode()
    except OSError:
        pass
    os.close(window.terminal)
    return text, window.child.wait(LIMIT)


def run(program, folder, *words, script=RUN):
    """Runs run.py to its end in a folder, without a terminal."""
    return subprocess.run([str(it) for it in (PYTHON, '-B', script, *words, '--program', program)], cwd=folder, capture_output=True,
                          text=True, stdin=subprocess.DEVNULL, timeout=LIMIT)


def roll_given(number):
    """The path of the roll that a `serve` was given."""
    words = pathlib.Path(f'/proc/{number}/cmdline').read_text().split('\0')
    return pathlib.Path(words[words.index('--roll') + 1])
