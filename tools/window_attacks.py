"""Tries what somebody without a session does to the clerks' window, and a `serve` that is held or answers
something else."""
import concurrent.futures, contextlib, itertools, os, pathlib, re, shutil, signal, socket, ssl, struct, subprocess
import threading, time

from window_clerk import LIMIT, PYTHON, TOP, Clerk, Window, stop, until
from window_seen import CITY, NAMES, new_folder, see

# How many connections of each kind, and how many seconds a page is waited for. A page that waits until the window cuts
# a connection takes 10 seconds at least, and one that waits for a `serve` that is held 30 or more: by these two limits
# they are told from a slow machine. Of so many tries one is enough where it may stand still for a moment.
MANY, PATIENCE, UNCUT, UNHELD, TRIES = 500, 30, 8, 20, 6
# How long pages took in this part.
waits = []


def seconds_of(what, times=3):
    """How long something takes, the longest of some times; 999 where it fails."""
    longest = 0
    for _ in range(times):
        begun = time.monotonic()
        try:
            what()
        except OSError:
            return 999
        longest = max(longest, time.monotonic() - begun)
    waits.append(longest)
    return longest


def beside(begin, *pages):
    """By how many seconds the slowest of some pages takes longer than `begin` took, whose connections are there meanwhile:
    whatever these ask for, the window works at it as long."""
    begun = time.monotonic()
    links = begin()
    took = time.monotonic() - begun
    slowest = max(seconds_of(page) for page in pages)
    for link in filter(None, links):
        link.close()
    return slowest - took


def see_soon(what, measure, most=UNCUT):
    """Sees that what `measure` gives is less than `most`, in one of some tries: a machine may stand still for a moment.
    Gives how many tries that took, or 0."""
    found = []
    while len(found) < TRIES and min(found, default=most) >= most:
        found.append(measure())
    see(min(found) < most, what, found)
    return len(found) if min(found) < most else 0


ONE = "import clerks, time; begun = time.monotonic(); clerks.hashed('one', '00'); print(time.monotonic() - begun)"


def one_hash():
    """How long one passphrase takes on this machine now, in a process of its own."""
    return float(subprocess.run([PYTHON, '-B', '-c', ONE], cwd=TOP / 'window', capture_output=True).stdout)


def minutes_since(begun):
    """How many minutes of the clock there may have been since then."""
    return 2 + int(time.monotonic() - begun) // 60


def say_waits(part):
    print(f'try_window: {part}: the slowest of {len(waits)} pages took {max(waits):.2f} seconds')


def connected(window, address, text=b'', tls=None):
    """A connection from an address, which has sent this."""
    link = socket.create_connection(('127.0.0.1', window.port), timeout=PATIENCE, source_address=(address, 0))
    link = tls.wrap_socket(link, server_hostname='127.0.0.1') if tls else link
    link.sendall(text)
    return link


def reset(link):
    """Ends a connection by a reset."""
    link.setsockopt(socket.SOL_SOCKET, socket.SO_LINGER, struct.pack('ii', 1, 0))
    link.close()


def certified(folder):
    """The options for TLS with a certificate that is made, and what a client needs for it."""
    words = ('openssl req -x509 -newkey rsa:2048 -nodes -keyout key.pem -out cert.pem -days 2 -subj /CN=desk.example '
             '-addext subjectAltName=IP:127.0.0.1,DNS:desk.example')
    made = subprocess.run(words.split(), cwd=folder, capture_output=True)
    see(made.returncode == 0, 'a certificate is made', made)
    certificate, key = folder / 'cert.pem', folder / 'key.pem'
    return ['--cert', certificate, '--key', key], ssl.create_default_context(cafile=certificate)


def omitted(window, *kinds):
    """How many lines of some kinds the log has, and how many it says that it left out."""
    lines = window.log()
    left = [it['lines'] for it in lines if it['what'] == 'left-out']
    return sum(it['what'] in kinds for it in lines), sum(it.get(kind, 0) for it in left for kind in kinds)


def try_strangers(program, work):
    """500 connections of each kind that fail, with TLS and without: none ends a thread, and the next clerk is
    served at once."""
    if not shutil.which('openssl'):
        print('try_window: there is no openssl, so connections that fail under TLS were not tried')
        return
    folder = new_folder(work, 'strangers')
    options, tls = certified(folder)
    plain = b'GET / HTTP/1.1\r\nHost: x\r\n\r\n'
    half = lambda: connected(window, '127.0.0.50', b'GET / HT', tls)
    begun = lambda: connected(window, '127.0.0.50', b'\x16\x03\x01\x02\x00')
    kinds = {'plain http': lambda: connected(window, '127.0.0.50', plain).close(),
             'three bytes and silence': lambda: connected(window, '127.0.0.50', b'\x16\x03\x01'),
             'a close in the handshake': lambda: begun().close(),
             'a reset in the handshake': lambda: reset(begun()),
             'a close in the request line': lambda: half().close(),
             'a reset in the request line': lambda: reset(half())}
    with Window(program, folder, options=options).start() as window:
        ann, ben = Clerk(window, tls=tls), Clerk(window, '127.0.0.50', tls)
        ann.patience = ben.patience = PATIENCE
        see('clerk 1' in ann.sign_in('Ann').seen and 'clerk 2' in ben.sign_in(NAMES[2]).seen, 'two clerks')
        start, failed, files = time.monotonic(), 0, pathlib.Path(f'/proc/{window.child.pid}/fd')
        before = len(list(files.iterdir()))
        for what, fail in kinds.items():
            tries = see_soon(f'{MANY} times {what}: the next clerk is served at once, and so is one at the same address',
                             lambda: beside(lambda: [fail() for _ in range(MANY)], lambda: ann.get('/'), lambda: ben.get('/')))
            if not tries:
                return
            failed += tries * MANY
        see('Entry 1 ' in ann.ask('cast', 'v1', ['12']).seen, 'a ballot after that')
        see(until(lambda: len(list(files.iterdir())) <= before), 'no connection is left open')
        said, status = window.end()
        see(status == 0 and 'Traceback' not in said, 'nothing is on standard error', said)
        lines, left = omitted(window, 'connection-failed', 'connection-unused')
        see(lines + left == failed,
            'each connection that failed is in the log, or counted', lines, left, failed)
        say_waits('strangers')
        see(lines <= 50 * 2 * minutes_since(start), 'with few lines a minute', lines, left)
        told = [it for it in window.log() if it['what'] in ('connection-failed', 'connection-unused')]
        see(all(it['address'] == '127.0.0.50' and it['kind'] for it in told), 'and its address', told[:1])


def try_answered(program, work):
    """Connections that end when a worker has their request: none ends a worker, with TLS and without."""
    folder = new_folder(work, 'answered')
    options, tls = certified(folder) if shutil.which('openssl') else ([], None)
    whole, odd = b'GET /static/window.js HTTP/1.1\r\nHost: x\r\n\r\n', b'G\0T / HTTP/9.9\r\nA\r\n\r\n'
    for given, client in (([], None), (options, tls)):
        with Window(program, folder, options=given).start() as window:
            ann = Clerk(window, tls=client)
            ann.patience = PATIENCE
            ann.sign_in('Ann')
            ends = {'a reset': reset, 'a close': socket.socket.close}

            def begin(text, fail):
                """200 connections that take their answer, which tells how long the window works at that, and as many that end."""
                for _ in range(200):
                    with connected(window, '127.0.0.51', text, client) as link:
                        while link.recv(65536):
                            pass
                for _ in range(200):
                    fail(connected(window, '127.0.0.51', text, client))
                return []

            for text, (what, fail) in itertools.product((whole, odd), ends.items()):
                see_soon(f'200 times {text} and {what}: the next clerk is served at once',
                         lambda: beside(lambda: begin(text, fail), lambda: ann.get('/')))
            threads = len(list(pathlib.Path(f'/proc/{window.child.pid}/task').iterdir()))
            see(threads >= 64, 'all workers live', threads)
            window.end()


def try_crowds(program, work):
    """Connections of one byte from three addresses, and sign-ins from many: the pages of a clerk come all the
    same."""
    folder = new_folder(work, 'crowds')
    with Window(program, folder).start() as window:
        ann, ben = Clerk(window), Clerk(window)
        ann.patience = ben.patience = PATIENCE
        ann.sign_in('Ann'), ben.sign_in(NAMES[2])
        for text in (b'G', b'POST /sign-in HTTP/1.1\r\nHost: x\r\nContent-Length: 100\r\n\r\nx'):
            begin = lambda: [connected(window, f'127.0.0.{60 + n % 3}', text) for n in range(48)]
            see_soon(f'48 connections of three addresses with {text} alone: a page comes at once',
                     lambda: beside(begin, lambda: ann.get('/')))
        begin = lambda: [connected(window, f'127.0.1.{1 + n // 16}', b'G') for n in range(800)]
        see_soon('800 of fifty addresses: a page comes at once', lambda: beside(begin, lambda: ann.get('/')))
        # Whoever signs in from many addresses waits for one another, and not the clerks who are signed in.
        is_over, tried, start = threading.Event(), [], time.monotonic()

        def guess(number):
            stranger = Clerk(window, f'127.0.2.{1 + number}')
            while not is_over.is_set():
                with contextlib.suppress(OSError):
                    tried.append(stranger.sign_in(f'nobody {number}', 'wrong').status)
                time.sleep(0.05)

        with concurrent.futures.ThreadPoolExecutor(80) as pool:
            for number in range(80):
                pool.submit(guess, number)
            try:
                until(lambda: len(tried) > 20)
                # Both are measured by how long this machine takes for one passphrase.
                see_soon('sign-ins from eighty addresses: each page comes before twenty passphrases could be tried',
                         lambda: (seconds_of(lambda: (time.sleep(0.2), ann.get('/')), 8) - 0.2) / one_hash(), 20)
                pages = []

                def sign_in():
                    ben.cookies = {key: it for key, it in ben.cookies.items() if 'session' not in key}
                    pages.append(ben.sign_in(NAMES[2]).seen)

                see_soon('a browser in which a clerk had signed in lets the clerk in before eighty could be tried',
                         lambda: seconds_of(sign_in, 1) / one_hash(), 80)
                see('clerk 2' in pages[-1], 'and nothing delays the clerk', pages)
            finally:
                is_over.set()
        see({403, 429} >= set(tried) and len(tried) > 20, 'and nobody else', set(tried), len(tried))
        window.end()
        lines, left = omitted(window, 'not-signed-in')
        say_waits('crowds')
        see(lines + left == len(tried) and lines <= 50 * minutes_since(start),
            'each wrong try is in the log, or counted', lines, left, len(tried))


DOOR = '''
import sign_in, sys
now = [0]
sign_in.time.monotonic = lambda: now[0]
sign_in.clerks.is_right = lambda clerk, passphrase: clerk is not None and passphrase == 'right'
door = sign_in.Door(sys.argv[1])
waits = []
for address in ('there', 'here'):
    for minute in range(120):
        now[0] += 60
        assert door.judge('Ann', 'wrong', 'there', lambda number: '') == (None, 0), minute
        began = now[0]
        now[0] += 0.5
        while door.judge('Ann', 'right', address, lambda number: '')[0] is None:
            now[0] += 0.5
        waits.append(now[0] - began)
        now[0] = began
    print(max(waits) <= (10 if address == 'there' else 0.5), end=' ')
    waits = []
mark = door.mark_of(door.known[1], 'nonce')
for _ in range(300):
    door.judge('Ann', 'wrong', 'there', lambda number: '')
    now[0] += 0.1
for it in (mark, mark[:-1] + '_'):
    print((door.judge('Ann', 'right', 'there', lambda number: it)[0] or {}).get('number'), end=' ')
'''


LONG = '''
import clerks, time
def lasted(passphrase):
    begun = time.thread_time()
    clerks.is_right(None, passphrase)
    return time.thread_time() - begun
short = min(lasted('wrong') for _ in range(3))
print(min(lasted('a' + '\\u0315\\u0300' * 15000) for _ in range(3)) < 3 * short)
'''


def try_owner(program, work):
    """By a clock that is set: one wrong try a minute, for two hours, locks out nobody who has the right
    passphrase."""
    done = subprocess.run([PYTHON, '-B', '-c', DOOR, work / 'clerks.json'], cwd=TOP / 'window', capture_output=True,
                          text=True)
    see(done.stdout == 'True True 1 None ', 'one wrong try a minute locks nobody out', done)
    done = subprocess.run([PYTHON, '-B', '-c', LONG], cwd=TOP / 'window', capture_output=True, text=True)
    see(done.stdout == 'True\n', 'a long passphrase of marks takes no longer', done)


def record_from(clerk, address, page):
    """Sends what a clerk has looked at, from another address."""
    other = Clerk(clerk.window, address)
    other.cookies, other.token, other.patience = dict(clerk.cookies), clerk.token, LIMIT
    return other.record(page)


def try_held(program, work):
    """A `serve` that is held: pages come all the same, and say so; what is asked for meanwhile is not sent."""
    folder = new_folder(work, 'held')
    # A start that is held: as long as a file is there.
    held = folder / 'held'
    slow = folder / 'slow'
    wait = f'while [ "$1" = serve ] && [ -e {held} ]; do sleep 0.1; done'
    slow.write_text(f'#!/bin/sh\n{wait}\nexec {program} "$@"\n')
    slow.chmod(0o755)
    ids = [f'number {number:05}' for number in range(3000)]
    projects = ''.join(f'{it};1;p\n' for it in ids)
    folder.joinpath('city.pb').write_text(CITY.replace('max_length;3\n', '').replace('VOTES\n', f'{projects}VOTES\n'))
    with Window(slow, folder).start() as window:
        ann, ben, head = Clerk(window), Clerk(window), Clerk(window)
        ann.sign_in('Ann'), ben.sign_in(NAMES[2]), head.sign_in('Head')
        for it in (ann, ben, head):
            it.patience = PATIENCE
        forms = [ann.look('cast', f'v{number}', ['12']) for number in range(90)]
        form = ben.look('cast', 'later', ['7'])
        number = window.serve_id()
        stop(number)
        try:
            with concurrent.futures.ThreadPoolExecutor(90) as pool:
                sent = [pool.submit(record_from, ann, f'127.0.0.{80 + n % 3}', it) for n, it in enumerate(forms)]
                time.sleep(5)
                for what, path in (('the first page', '/'), ("the head clerk's page", '/head')):
                    lasted = seconds_of(lambda: head.get(path))
                    see(lasted < UNHELD, f'ninety ballots at a held serve: {what} comes', lasted)
                with contextlib.suppress(OSError):
                    see(until(lambda: 'The desk has not answered for' in ben.get('/').seen, UNHELD), 'and says so')
                    lasted = seconds_of(lambda: ben.post('/voter', {'voter': 'later'}))
                    see(lasted < UNHELD, 'a voter can be looked up', lasted)
                    begun = time.monotonic()
                    page = ben.record(form)
                    see('nothing was sent' in page.seen and time.monotonic() - begun < UNHELD,
                        'nothing is sent meanwhile, which is told at once', page.seen)
                os.kill(number, signal.SIGCONT)
                for it in sent:
                    it.exception()
        finally:
            os.kill(number, signal.SIGCONT)
        time.sleep(0.5)
        voters = [row[3] for row in window.entries()]
        see(len(set(voters)) == len(voters) and 0 < len(voters) <= 90, 'each ballot once', len(voters))
        pages = [ann.record(form) for form in forms]
        see(len(window.entries()) == 90 and all('Recorded.' in page.seen for page in pages),
            'the same forms: what was not sent is sent now', len(window.entries()))
        see('Recorded.' in ben.record(form).seen and 'has not answered' not in ben.get('/').seen,
            'and so is this')
        # Rows that fill the pipe to a serve that is held.
        forms = [ann.look('cast', f'long {number}', ids) for number in range(3)]
        number = window.serve_id()
        stop(number)
        try:
            with concurrent.futures.ThreadPoolExecutor(3) as pool:
                sent = [pool.submit(ann.record, form) for form in forms]
                time.sleep(4)
                lasted = seconds_of(lambda: ben.get('/'))
                see(lasted < UNHELD, 'a full pipe to a held serve: a page comes', lasted)
                os.kill(number, signal.SIGCONT)
                see(any('Recorded.' in it.result().seen for it in sent)
                    and all('Recorded.' in ann.record(form).seen for form in forms), 'and then they are recorded')
        finally:
            os.kill(number, signal.SIGCONT)
        # A start that is held.
        held.touch()
        window.kill_serve()
        begun = time.monotonic()
        with contextlib.suppress(OSError):
            ben.get('/')
        see(time.monotonic() - begun < UNHELD, 'a start that is held: a page comes', time.monotonic() - begun)
        with contextlib.suppress(OSError):
            see(until(lambda: 'The desk has not answered for' in ben.get('/').seen, UNHELD), 'and says so')
        held.unlink()
        until(lambda: 'has not answered' not in ben.get('/').seen)
        see('Recorded.' in ben.ask('cast', 'at last', ['7']).seen, 'the day goes on')
        say_waits('held')
        window.end()
    see(window.audit().returncode == 0, 'the journal is audited', window.audit())


# A program between the window and `serve`: it keeps what is sent, holds the answers while a file is there,
# and changes some.
BETWEEN = '''#!/usr/bin/python3
import os, pathlib, subprocess, sys, threading, time
folder, program = pathlib.Path({folder!r}), {program!r}
if sys.argv[1] != 'serve':
    os.execv(program, [program, *sys.argv[1:]])
serve = subprocess.Popen([program, *sys.argv[1:]], stdin=subprocess.PIPE, stdout=subprocess.PIPE)
def answer():
    for line in serve.stdout:
        while (folder / 'hold').exists():
            time.sleep(0.05)
        twist = (folder / 'twist').read_text().split('>') if (folder / 'twist').exists() else ('', '')
        sys.stdout.buffer.write(line.decode().replace(*twist).encode() if twist[0] else line)
        sys.stdout.buffer.flush()
    os._exit(serve.wait())
threading.Thread(target=answer).start()
for line in sys.stdin.buffer:
    with open(folder / 'sent', 'ab') as file:
        file.write(line)
    serve.stdin.write(line)
    serve.stdin.flush()
serve.stdin.close()
'''


def try_rows(program, work):
    """What the window sends is judged first, and an answer is known by its row."""
    folder = new_folder(work, 'rows')
    unfit = ['zero\u200bwidth', 'x' * 201]
    folder.joinpath('city.pb').write_text(CITY + ''.join(f'{it};12\n' for it in unfit))
    between = folder / 'between'
    between.write_text(BETWEEN.format(folder=str(folder), program=str(program)))
    between.chmod(0o755)
    with Window(between, folder, options=['--min', 1]).start() as window:
        ann, ben, head = Clerk(window), Clerk(window), Clerk(window)
        ann.sign_in('Ann'), ben.sign_in(NAMES[2]), head.sign_in('Head')
        # A line end in a project's id, and another clerk's ballot right behind it.
        for number, ids in enumerate((['12\rfoo'], ['12\nfoo'], ['12', '7\r']), 1):
            forms = ann.look('cast', f'ann {number}', ids), ben.look('cast', f'ben {number}', ['7'])
            (folder / 'hold').touch()
            with concurrent.futures.ThreadPoolExecutor(2) as pool:
                first = pool.submit(ann.record, forms[0])
                time.sleep(0.5)
                second = pool.submit(ben.record, forms[1])
                time.sleep(0.5)
                (folder / 'hold').unlink()
                pages = first.result().seen, second.result().seen
            stands = [row[3] for row in window.entries() if row[5] == 'done']
            see('Recorded.' in pages[1] and f'ben {number}' in stands,
                'another ballot beside it is recorded, and told so', ids, pages[1])
            is_trimmed = ids[-1].strip() == '7'
            see(('Recorded.' in pages[0]) == (f'ann {number}' in stands) == is_trimmed,
                'no row within an id is a row', ids, pages[0], stands)
            see('has stopped' not in head.get('/head').seen, 'the desk goes on', head.get('/head').seen)
        sent = (folder / 'sent').read_text()
        quoted = [re.fullmatch(r'("([^"]|"")*";){3}"([^"]|"")*"', line) for line in sent.splitlines()]
        see(all(quoted) and len(quoted) == 4, 'each field of what is sent is quoted', sent)
        # Answers that are changed on their way: all that wait are not known, and nobody is told something
        # else.
        twists = {'the places of an answer': (['12', '7'], ';0,1;>;0;'),
                  'the voter of an answer': (['12'], ';{voter};>;somebody;'),
                  'the number of an answer': (['12'], '{next};1;cast>{after};1;cast'),
                  'the number of a fault': ([], 'TooFew;1>TooFew;2'),
                  'a fault for an answer': (['12'], '{next};1;cast;{voter};0;done>fault;script;2;BadRow;9')}
        for number, (what, (ids, twist)) in enumerate(twists.items()):
            voter, count = f'twisted {number}', len(window.entries())
            head.get('/head')
            head.post('/again', {})
            head.get('/')
            (folder / 'twist').write_text(twist.format(voter=voter, next=count + 1, after=count + 2))
            forms = ann.look('cast', voter, ids), ben.look('cast', f'beside {number}', ['7'])
            (folder / 'hold').touch()
            with concurrent.futures.ThreadPoolExecutor(2) as pool:
                is_sent = lambda voter: f'"{voter}"' in (folder / 'sent').read_text()
                first = pool.submit(ann.record, forms[0])
                until(lambda: is_sent(voter))
                second = pool.submit(ben.record, forms[1])
                until(lambda: is_sent(f'beside {number}'))
                (folder / 'hold').unlink()
                pages = first.result().seen, second.result().seen
            see(all('not known whether this was recorded' in it for it in pages),
                f'{what} is another: all that wait are not known', pages)
            (folder / 'twist').unlink()
        head.get('/head')
        head.post('/again', {})
        see('Recorded.' in ann.ask('cast', 'after that', ['12']).seen, 'the day goes on')
        for voter in (f' {unfit[0]} ', unfit[1]):
            wanted = {'voter': voter, 'seen': '0', 'request': 'replace'}
            see(ann.post('/voter', {'voter': voter}).status == ann.post('/look', wanted).status == 400,
                'the window does not take the id', voter)
        said, status = window.end()
        see("The window does not take these voters of the file: 'zero\\u200bwidth', 'xxx" in window.told
            and '`pb_app serve` takes' in window.told and 'old1' not in window.told,
            'voters of the file who are outside its limits are named at the start', window.told)
        see(status == 0, 'the end', said)
    rows = ''.join(f'1;withdraw;{it};\n' for it in unfit)
    done = subprocess.run([program, 'serve', window.file, folder / 'alone'], input=rows, capture_output=True,
                          text=True)
    see(done.stdout.count(';done\n') == 2, 'and serve serves them', done)
