"""Tries the doors of the clerks' window, without a browser: who gets in, what is refused, TLS."""
import concurrent.futures, contextlib, hashlib, re, shutil, socket, stat, time

from window_attacks import TRIES, beside, certified, minutes_since, see_soon
from window_clerk import CLERKS, LIMIT, PYTHON, Clerk, Window, passphrase_of, typed_at_terminal, until
from window_seen import MARKUP, NAMES, new_folder, see


def try_doors(program, work):
    """Who gets in, and what is refused."""
    folder = new_folder(work, 'doors')
    with Window(program, folder).start() as window:
        ann, head, other = Clerk(window), Clerk(window), Clerk(window, '127.0.0.9')
        first = ann.get('/')
        policy = first.headers['Content-Security-Policy']
        see(all(part in policy for part in ("default-src 'none'", "frame-ancestors 'none'", "form-action 'self'"))
            and 'unsafe' not in policy and '*' not in policy, 'the policy is strict', policy)
        for page in (first, ann.get('/static/window.js'), ann.get('/nowhere'), ann.send('DELETE', '/')):
            see((page.headers['Cache-Control'], page.headers['Referrer-Policy']) == ('no-store', 'no-referrer')
                and page.headers['Content-Security-Policy'] == policy, 'each answer has its headers', page.status, page.headers)
        cookie = first.headers['Set-Cookie']
        see('HttpOnly' in cookie and 'SameSite=Strict' in cookie and 'Secure' not in cookie and str(window.port) in cookie,
            'the cookie of the first page', cookie)
        before = dict(ann.cookies)
        page = ann.post('/sign-in', {'name': 'Ann', 'passphrase': passphrase_of('Ann')})
        session = next(it for it in page.headers.get_all('Set-Cookie'))
        see(page.status == 303 and 'HttpOnly' in session and 'SameSite=Strict' in session and before.items() <= ann.cookies.items()
            and len(ann.cookies) == len(before) + 2, 'a new session and a mark at the sign-in', session)
        one = dict(ann.cookies)
        ann.sign_in('Ann')
        see(ann.cookies != one and 'clerk 1' in ann.get('/').seen, 'another session at the next sign-in')
        old = Clerk(window)
        old.cookies = one
        see('Your name' in old.get('/').seen, 'and the one before has ended')
        # Forms: tokens, origins, names of the host.
        entries = len(window.entries())
        looked = ann.look('cast', 'stolen', ['12'])
        fields = {'form': looked.field('form'), 'seen': '0'}
        token = ann.token
        for what, headers, given in [
                ('no token', {}, ''), ('a wrong token', {}, 'f' * 64), ('another origin', {'Origin': 'http://evil.example'}, token),
                ('no origin', {'Origin': None}, token), ('the origin null from elsewhere', {'Origin': 'null', 'Sec-Fetch-Site': 'cross-site'}, token),
                ('the origin null', {'Origin': 'null'}, token), ('the origin without a port', {'Origin': 'http://127.0.0.1'}, token),
                ('a body of no kind', {'Content-Type': None}, token), ('a body of JSON', {'Content-Type': 'application/json'}, token),
                ('a body of parts without a boundary', {'Content-Type': 'multipart/form-data; boundary='}, token),
                ('another host', {'Host': 'evil.example'}, token), ('no host', {'Host': ''}, token)]:
            ann.token = given
            page = ann.post('/record', fields, headers)
            see(page.status in (400, 403) and len(window.entries()) == entries, f'a form with {what} is refused', page.status, page.seen)
        ann.token = token
        for name in ('\xff', 'a' * 300, '..', f'127.0.0.1:{window.port}\x88', '[', '127.0.0.\x97', '127.0.0.1:x'):
            page = ann.get('/', Host=name)
            see(page.status == 400 and ('Wrong address' in page.seen or not page.seen), 'a name that no host has is refused in words', name, page.status)
        see(not any(it['what'] == 'failed' for it in window.log()), 'and nothing fails by that')
        thief = Clerk(window)
        thief.get('/')
        page = thief.post('/record', fields)
        see(page.status == 303 and len(window.entries()) == entries, 'a stolen form without its session is refused', page.status)
        ben = Clerk(window)
        ben.sign_in(NAMES[2])
        page = ben.post('/record', fields)
        see(page.status == 409 and len(window.entries()) == entries, "another clerk's form is refused", page.status)
        page = ann.post('/record', {**fields, 'seen': '5'})
        see(page.status == 409 and len(window.entries()) == entries, 'a form with another last entry is refused', page.status)
        ann.get('/')
        # Shutting and showing are for the head clerk.
        for path, given in (('/shut', {'word': 'shut'}), ('/show', {'voter': 'old1'}), ('/again', {})):
            page = ann.post(path, given)
            see(page.status == 403 and len(window.entries()) == entries, f'{path} is refused to another clerk', page.status)
        for path in ('/head', '/result', '/result/report.txt'):
            see(ann.get(path).status == 403, f'{path} is refused to another clerk')
        see('Your name' in Clerk(window).get('/').seen and Clerk(window).get('/head').status == 303, 'nothing without signing in')
        # Signing out ends the session on the server.
        held = dict(ben.cookies)
        ben.get('/')
        ben.post('/sign-out', {})
        ben.cookies = held
        see('Your name' in ben.get('/').seen, 'signing out ends the session')
        # A clerk who is closed, or has another passphrase, is signed out at once.
        for words, answers in (('close', []), ('passphrase', ['another passphrase'] * 2)):
            ben = Clerk(window)
            if words == 'passphrase':
                time.sleep(1)
                typed_at_terminal([PYTHON, CLERKS, '--clerks', folder / 'clerks.json', words, NAMES[2]], [passphrase_of(NAMES[2])] * 2)
            see('clerk 2' in ben.sign_in(NAMES[2]).seen, 'a clerk signs in')
            said, status = typed_at_terminal([PYTHON, CLERKS, '--clerks', folder / 'clerks.json', words, NAMES[2]], answers)
            see(status == 0 and 'Your name' in ben.get('/').seen, f'{words} signs a clerk out', said)
            see('clerk 2' not in ben.sign_in(NAMES[2]).seen, f'{words}, and the old passphrase opens nothing')
        try_limits(window, ann)
        try_ids(window, ann)
        try_wrong_passphrases(window, head, other)
        try_files(window, folder)


def try_limits(window, ann):
    """Sizes, times and numbers."""
    page = ann.post('/look', [('voter', 'v'), ('seen', '0'), ('request', 'cast'), ('id', 'x' * 66000)])
    see(page.status == 413, 'a body above 64 KiB is refused', page.status)
    page = ann.post('/look', [('voter', 'v'), ('seen', '0'), ('request', 'cast'), ('id', 'x' * 60000)])
    see(page.status == 200, 'a body below is not', page.status)
    for words, what in ((b'Transfer-Encoding: chunked\r\n\r\n5\r\nhello\r\n0\r\n\r\n', 'in pieces'), (b'Content-Length: -5\r\n\r\n', 'of less than nothing')):
        with socket.create_connection(('127.0.0.1', window.port)) as link:
            link.sendall(b'POST /sign-in HTTP/1.1\r\nHost: 127.0.0.1\r\n' + words)
            link.settimeout(LIMIT)
            see(b' 411 ' in link.recv(200), f'a body {what} is refused')
    stranger, before, begun = Clerk(window, '127.0.0.11'), len(window.log()), time.monotonic()
    for _ in range(220):
        stranger.post('/sign-out', {})
    see(0 < len(window.log()) - before <= 51 * minutes_since(begun), 'strangers fill no more than 50 lines of a kind a minute',
        len(window.log()) - before)
    drips, begun, lasted = {}, time.monotonic(), {}
    for what, beginning in (('headers', b'GET / HTTP/1.1\r\nA: '), ('a body', b'POST /sign-in HTTP/1.1\r\nHost: x\r\nContent-Length: 1000\r\n\r\n'),
                            ('nothing', b'')):
        drips[what] = link = socket.create_connection(('127.0.0.1', window.port), source_address=('127.0.0.7', 0))
        link.sendall(beginning)
    while len(lasted) < len(drips) and time.monotonic() - begun < 55:
        time.sleep(1)
        for what, link in drips.items():
            try:
                if what != 'nothing':
                    link.sendall(b'x')
                link.setblocking(False)
                if not link.recv(1000):
                    lasted.setdefault(what, time.monotonic() - begun)
            except BlockingIOError:
                pass
            except OSError:
                lasted.setdefault(what, time.monotonic() - begun)
            link.setblocking(True)
    for what in drips:
        see(8 < lasted.get(what, 0), f'{what} byte by byte is cut after 10 seconds, and not before', lasted)
    # In one of some tries, for a slow machine may first look after the 10 seconds.
    see(8 in (shut_of_many(window, ann) for _ in range(TRIES)), '16 connections of an address, and no more')


def is_shut(link):
    """Whether the window has shut a connection."""
    link.setblocking(False)
    try:
        return link.recv(1) == b''
    except BlockingIOError:
        return False
    except OSError:
        return True


def shut_of_many(window, ann):
    """How many of 24 silent connections of an address are shut a moment later."""
    with contextlib.ExitStack() as stack:
        links = [stack.enter_context(socket.create_connection(('127.0.0.1', window.port), source_address=('127.0.0.8', 0)))
                 for _ in range(24)]
        until(lambda: sum(map(is_shut, links)) >= 8, 8)
        see(ann.get('/').status == 200, 'another address is served meanwhile')
        return sum(map(is_shut, links))


def try_ids(window, ann):
    """Ids that are markup, unknown, with spaces, with a line end; a second sending; a form of another time."""
    count = len(window.entries())
    page = ann.ask('cast', 'unknown project', ['12', 'nowhere'])
    see('no project has an id that the ballot names' in page.seen and 'not in the journal' in page.seen and len(window.entries()) == count,
        'an id that no project has is refused in words', page.seen)
    for piece in ('12\r0;shut;;', '12\n0;shut;;', '12"\n0;shut;;', '12";\n0;shut;;', '12\0'):
        page = ann.ask('cast', 'two rows', [piece])
        see('no project has' in page.seen and len(window.entries()) == count, 'a row within an id is no row', piece, page.seen)
    for request in ('shut', 'cast;v', ''):
        see(ann.post('/look', {'voter': 'v', 'seen': '0', 'request': request}).status == 400, 'no other request can be looked at', request)
    page = ann.look('cast', MARKUP, ['12'])
    see(MARKUP not in page.text and MARKUP in page.seen, 'markup in an id is text', page.text)
    page = ann.post('/voter', {'voter': MARKUP})
    see(MARKUP not in page.text and 'it came with the file' in page.seen, 'markup in a voter of the file is text', page.seen)
    page = ann.ask('replace', MARKUP, [MARKUP])
    see('Recorded.' in page.seen and window.entries()[-1] == [str(count + 1), '1', 'replace', MARKUP, '2', 'done'],
        'a voter and a project of markup', page.seen, window.entries()[-1:])
    for voter in ('a\nb', 'a\rb', 'a\0b', '   ', '', '\u2003', '\u202eturned', 'a\u200bb', 'a\u2028b', 'a\u2029b', 'a\x85b', 'x' * 201, 'é' * 101):
        page = ann.post('/voter', {'voter': voter})
        see(page.status == 400, f'{voter!r} is no id', page.status)
    see('Recorded.' in ann.ask('cast', ' \u2003 spaced one\t', [' 12 ', '7', '7', '']).seen
        and window.entries()[-1][3:] == ['spaced one', '0,1', 'done'], 'ids are trimmed', window.entries()[-1:])
    for odd in ('q"uote', 'semi;colon', 'co,mma', '=1+1', "it's", 'naïve 公園', '-', '#', 'META', 'x' * 200, 'é' * 100):
        see('Recorded.' in ann.ask('cast', odd, []).seen and window.entries()[-1][2:] == ['cast', odd, '', 'done'],
            f'{odd!r} is an id', window.entries()[-1:])
    page = ann.ask('cast', 'too many', ['12', '7', '99', MARKUP])
    see('too many projects' in page.seen and window.entries()[-1][-1] == 'too-long', 'too many projects are refused by the desk', page.seen)
    # A second sending gets the first's answer; a form of before is not sent.
    form = ann.look('cast', 'twice', ['12'])
    stale = ann.look('cast', 'twice', ['7'])
    one, two = ann.record(form), ann.record(form)
    number = re.search(r'Entry (\d+)', one.seen)[1]
    see('Recorded.' in one.seen and f'Entry {number} ' in two.seen and len(window.entries()) == int(number), 'a second sending')
    page = ann.record(stale)
    see('Nothing was sent' in page.seen and f'entry {number}, cast' in page.seen and len(window.entries()) == int(number),
        'a form of before the last entry is not sent', page.seen)
    # All at once, the same form.
    form = ann.look('replace', 'twice', ['99'])
    with concurrent.futures.ThreadPoolExecutor(8) as pool:
        texts = {page.seen for page in pool.map(lambda _: ann.record(form), range(8))}
    see(len(texts) == 1 and len(window.entries()) == int(number) + 1, 'one form sent eight times at once', texts)
    # No id of a voter in the log beside the requests that were asked for; no ballot anywhere.
    see(all('voter' not in it or it['what'] in ('asked', 'looked') for it in window.log()), 'ids stand with requests alone')
    see(not any({'ids', 'places', 'ballot', 'passphrase', 'name'} & set(it) for it in window.log()), 'no ballot and no name in the log')
    see(all(it['time'].endswith('Z') for it in window.log()), 'the log is in UTC')
    see(all('?' not in line for line in re.findall(r'(?:action|href|formaction)="([^"]*)"', form.text)), 'no address has a question')


def delay(clerk, name):
    """Tries wrong passphrases until the next try has to wait for some seconds."""
    wait = 0
    while wait < 6:
        found = re.search(r'Wait (\d+) seconds', clerk.sign_in(name, 'wrong').seen)
        wait = int(found[1]) if found else 0
        time.sleep(wait if 0 < wait < 6 else 0)


def try_wrong_passphrases(window, head, other):
    """Delays, and who is never locked out. How long, and what a made-up mark does, try_owner sees by a clock."""
    # What has to be told before a delay is over is looked for in one of some tries.
    see(any(is_slowed(window, f'127.0.20.{number}') for number in range(1, 1 + TRIES)), 'each wrong passphrase delays more')
    for number in range(4):
        other.sign_in(f'nobody {number}', 'wrong')
    see('Recorded' not in other.get('/').seen and 'Wait' in other.sign_in('nobody 9', 'wrong').seen + other.sign_in('nobody 8', 'wrong').seen
        + other.sign_in('nobody 7', 'wrong').seen, 'an address is delayed, whatever the name')
    is_delayed = lambda clerk: 'Wait' in (delay(clerk, 'Head'), clerk.sign_in('Head'))[1].seen
    see(any(is_delayed(other) for _ in range(TRIES)), "wrong tries at the head clerk's name delay that address")
    see('clerk 0' in head.sign_in('Head').seen, 'and not the head clerk at another address')
    # In a browser in which the head clerk has signed in, others at the same address change nothing.
    see(any(is_delayed(Clerk(window)) for _ in range(TRIES)), 'the address is delayed now')
    see('clerk 0' in head.sign_in('Head').seen, 'and not the browser in which the head clerk had signed in')
    times = [times_of(window, number) for number in range(3)]
    known, unknown, at_once = zip(*times)
    see(0.3 < min(known) / min(unknown) < 3, 'an unknown name takes as long', times)
    see(sorted(at_once)[1] > 3 * min(known + unknown), 'one passphrase is tried at a time', times)


def is_slowed(window, address):
    """Whether each of some wrong passphrases delays the next try from an address more."""
    bad, waits = Clerk(window, address), []
    see('wrong' in bad.sign_in('Cy', 'wrong').seen, 'a wrong passphrase is told')
    for _ in range(4):
        while found := re.search(r'Wait (\d+) seconds', bad.sign_in('Cy', 'wrong').seen):
            waits.append(int(found[1]))
            time.sleep(int(found[1]))
    return len(waits) >= 3 and waits == sorted(waits) and waits[-1] >= 2 * waits[0]


def times_of(window, number):
    """How long a wrong passphrase takes at a known name and at an unknown one, and six at once, which wait for one another."""
    begun = [time.monotonic()]
    for at, name in enumerate((NAMES[number], f'no {number}')):
        Clerk(window, f'127.0.{3 + number}.{20 + at}').sign_in(name, 'wrong')
        begun.append(time.monotonic())
    with concurrent.futures.ThreadPoolExecutor(6) as pool:
        list(pool.map(lambda n: Clerk(window, f'127.0.{3 + number}.{30 + n}').sign_in(f'no {n}', 'wrong'), range(6)))
    return begun[1] - begun[0], begun[2] - begun[1], time.monotonic() - begun[2]


def try_files(window, folder):
    """Files for this account alone; the window is ended in order."""
    for path in ('city.journal', 'city.journal.log', 'city.journal.words', 'clerks.json'):
        see(stat.S_IMODE((folder / path).stat().st_mode) == 0o600, f'{path} is 0600')
    see(all(line.startswith('{"time": ') for line in (folder / 'city.journal.log').read_text().splitlines()), 'each line of the log is JSON')
    said, status = window.end()
    digest = hashlib.sha256(window.journal.read_bytes()).hexdigest()
    see(status == 0 and digest in said and f'Entries: {len(window.entries())},' in said, 'the end of the day is told', said, status)
    see('Traceback' not in said, 'and nothing else is on standard error', said)
    see(window.audit().stdout == f'entries;{len(window.entries())};open\n', 'the journal is at rest and audited', window.audit())


def try_tls(program, work):
    """TLS, and a name that the window goes by."""
    if not shutil.which('openssl'):
        print('try_window: there is no openssl, so TLS was not tried')
        return
    folder = new_folder(work, 'tls')
    options, tls = certified(folder)
    with Window(program, folder, options=[*options, '--name', 'desk.example']).start() as window:
        stuck = lambda: [socket.create_connection(('127.0.0.1', window.port))]
        see_soon('a client without a handshake holds up nobody', lambda: beside(stuck, lambda: Clerk(window, tls=tls).get('/')))
        ann = Clerk(window, tls=tls)
        cookie = ann.get('/').headers['Set-Cookie']
        see('Secure' in cookie and cookie.startswith('__Host-'), 'cookies are Secure under TLS', cookie)
        see('clerk 1' in ann.sign_in('Ann').seen and 'Entry 1 ' in ann.ask('cast', 'v1', ['12']).seen, 'a ballot over TLS')
        see(ann.get('/', Host=f'desk.example:{window.port}').status == 200 and ann.get('/', Host=f'other.example:{window.port}').status == 400,
            'the names of the host')
        window.end()
