"""Tries a full disk, and starts that fail."""
import contextlib, os, re, shutil, signal, socket, subprocess, time

from window_clerk import LIMIT, PYTHON, RUN, TOP, Clerk, Window, at_terminal, ended, passphrase_of, until
from window_copies import copies_of, is_whole
from window_seen import CITY, new_folder, see


# A log on a full disk: a line is whole or not there, and what had to stand there first is not done.
HALVES = '''
import log, os, resource, signal, sys
signal.signal(signal.SIGXFSZ, signal.SIG_IGN)
it = log.Log(sys.argv[1])
it.write('asked', True, form='one')
size = os.path.getsize(sys.argv[1])
resource.setrlimit(resource.RLIMIT_FSIZE, (size + 20, resource.RLIM_INFINITY))
it.write('answered', form='one')
try:
    it.write('asked', True, form='two')
except log.Unwritten as why:
    print('refused', os.path.getsize(sys.argv[1]) == size, it.failure)
resource.setrlimit(resource.RLIMIT_FSIZE, (resource.RLIM_INFINITY, resource.RLIM_INFINITY))
print(it.why_not())
it.write('asked', True, form='three')
print([line[:10] for line in open(sys.argv[1])].count('{"time": "'), *log.Log(sys.argv[1]).asked)
os.write(it.file, b'{"time": "2026-11-03T10:0')
it.write('asked', True, form='four')
os.write(it.file, b'{"time": "2026-11-03T10:0')
print(*log.Log(sys.argv[1]).asked)
'''


def try_full(program, work):
    """The disk is full: what fails is told in words, and the desk goes on when there is room."""
    done = subprocess.run([PYTHON, '-B', '-c', HALVES, work / 'log'], cwd=TOP / 'window', capture_output=True, text=True)
    lines = done.stdout.splitlines()
    see(lines == ['refused True No space left on device', 'None', '3 one three', 'one three four']
        and done.stderr.count('cannot be written') == 1 and done.stderr.count('ended in half a line') == 1,
        'a line of the log is whole or not there', done)
    disk = work / 'disk'
    disk.mkdir()
    if subprocess.run(['mount', '-t', 'tmpfs', '-o', 'size=1m', 'tmpfs', disk], capture_output=True).returncode:
        print('try_window: no disk can be mounted here, so a full one was not tried')
        return
    try:
        try_full_disk(program, work, disk)
    finally:
        subprocess.run(['umount', '-l', disk], check=True)


def fill(path):
    """Fills the disk on which a path is."""
    with contextlib.suppress(OSError), open(path, 'wb', buffering=0) as file:
        while file.write(bytes(512)):
            pass


def try_full_disk(program, work, disk):
    folder, copies = new_folder(work, 'full'), work / 'copies'
    copies.mkdir()
    for it in folder.iterdir():
        shutil.copy(it, disk)
    window = Window(program, disk, options=['--backup', copies])
    with window.start():
        ann, head = Clerk(window), Clerk(window)
        ann.sign_in('Ann'), head.sign_in('Head')
        see('Entry 1 ' in ann.ask('cast', 'v1', ['12']).seen, 'a ballot while there is room')
        form, filler = ann.look('cast', 'v2', ['12']), disk / 'filler'
        fill(filler)
        # The last block of the log's file has room for some lines.
        see(until(lambda: (head.get('/'), head.post('/show', {'voter': 'v1'}))[1].status == 503), 'a look that cannot be logged shows nothing')
        page = ann.record(form)
        see(page.status == 503 and 'Nothing was sent to the desk just now' in page.seen and len(window.entries()) == 1,
            'a full disk: nothing is sent, and the page says so', page.seen)
        words = 'The window cannot write its log (No space left on device), so the desk takes no requests.'
        see(words in page.seen or words in ann.get('/').seen, 'and each page says why', ann.get('/').seen)
        place = f'Make room on the disk that is mounted at {disk} (tmpfs, tmpfs, free: 0) and has the folder {disk}'
        see(words in head.get('/head').seen and f'{place}: then' in head.get('/head').seen,
            "also the head clerk's, and which disk", head.get('/head').seen)
        see(str(disk) not in ann.get('/').seen, 'which is for the head clerk alone')
        filler.unlink()
        see('cannot write its log' not in ann.get('/').seen, 'once there is room nothing is said')
        see('Entry 2 ' in ann.record(form).seen, 'and the same form is sent')
        said, status = window.end()
        see(status == 0 and f'city.journal.log cannot be written: No space left on device. The desk takes no requests. {place}.' in said
            and 'Traceback' not in said, 'the terminal said so', said)
    see(window.audit().stdout == 'entries;2;open\n' and is_whole(copies_of(copies)[-1]), 'the journal is audited', window.audit())
    for line in (disk / 'city.journal.log').read_text().splitlines():
        see(line.startswith('{"time": ') and line.endswith('}'), 'each line of the log is whole', line)
    # A full disk of the copies, and one of the journal alone.
    with Window(program, folder, options=['--backup', disk]) as window:
        window.start()
        fill(disk / 'filler')
        said, status = window.end()
        see(status == 1
            and re.search(rf'No copy was made: {disk}/\S+: No space left on device. {re.escape(place)}', said),
            'a full disk of the copies is named', said)
        (disk / 'filler').unlink()
    journal = disk / 'far.journal'
    for end in ('.log', '.words'):
        os.symlink(folder / f'far{end}', f'{journal}{end}')
    with Window(program, folder) as window:
        window.journal = journal
        window.start()
        ann, head = Clerk(window), Clerk(window)
        ann.sign_in('Ann'), head.sign_in('Head')
        fill(disk / 'filler')
        until(lambda: 'fault;write' in (ann.ask('cast', f'v{len(window.log())}', ['12']), head.get('/head'))[1].seen)
        page = head.get('/head')
        see(f'The disk of the journal is full or fails. {place}.' in page.seen
            and str(disk) not in ann.get('/').seen, 'a full disk of the journal is named', page.seen)
        (disk / 'filler').unlink()
        head.post('/again', {})
        see('Recorded.' in ann.ask('cast', 'v0', ['12']).seen, 'with room, the desk is started again')
        said, status = window.end()
        see(f'the desk has stopped: fault;write' in said and f'{place}. The head clerk' in said,
            'also at the terminal', said)


def try_failed_starts(program, work):
    """A start that fails says why in words, without a traceback; its status is not 0, and it leaves no folder behind."""
    folder, left = new_folder(work, 'failed'), work / 'temporary'
    left.mkdir()
    (folder / 'voters.csv').write_text('voter_id;name\nv1;Ann\n')
    (folder / 'broken.pem').write_text('nothing\n')
    (folder / 'bad.journal').write_text('journal;2\n1;1;cost;v1;0;done\n')
    taken = socket.socket()
    taken.bind(('127.0.0.1', 0))
    taken.listen()
    port = taken.getsockname()[1]
    words = ['city.pb', 'city.journal', '--clerks', 'clerks.json', '--program', program, '--roll', 'voters.csv']
    start = lambda *more: subprocess.run([str(it) for it in (PYTHON, '-B', RUN, *words, *more)], cwd=folder, capture_output=True, text=True,
                                         stdin=subprocess.DEVNULL, timeout=LIMIT, env={**os.environ, 'TMPDIR': str(left)})
    for more, said in ((['--listen', f'127.0.0.1:{port}'], f'--listen 127.0.0.1:{port}: another program has port {port}'),
                       (['--listen', '127.0.0.1:8080', '--roll', 'nowhere.csv'], 'nowhere.csv: No such file'),
                       (['--program', folder / 'nowhere'], 'is not a program that can be run'),
                       (['--cert', 'broken.pem', '--key', 'broken.pem'], 'the certificate broken.pem with the key broken.pem cannot be used'),
                       (['--clerks', 'nobody.json'], 'nobody.json: No such file')):
        done = start('--listen', '127.0.0.1:0', *more)
        see(done.returncode == 1 and said in done.stderr and 'Traceback' not in done.stderr and 'open at' not in done.stdout, said, done)
        see(not list(left.iterdir()) and not done.stdout, f'{said}: nothing is left', *left.iterdir())
    see(not (folder / 'city.journal').exists(), 'no journal was made by a start that failed')
    words[1] = 'bad.journal'
    done = start('--listen', '127.0.0.1:0')
    see(done.returncode == 1 and 'fault;audit;2;BadRow;1' in done.stderr and 'field request: "cost" is not a request' in done.stderr
        and '.words' not in done.stderr and not list(left.iterdir()), 'words and not the name of their file', done)
    # Ended while it starts: here it waits for another run's lock.
    words[1] = 'city.journal'
    with subprocess.Popen([program, 'serve', folder / 'city.pb', folder / 'city.journal'], stdin=subprocess.PIPE, stdout=subprocess.PIPE,
                          stderr=subprocess.DEVNULL) as serve:
        serve.stdout.readline()
        for number in (signal.SIGINT, signal.SIGTERM):
            child = subprocess.Popen([str(it) for it in (PYTHON, '-B', RUN, *words, '--listen', '127.0.0.1:0')], cwd=folder, text=True,
                                     stdout=subprocess.PIPE, stderr=subprocess.STDOUT, env={**os.environ, 'TMPDIR': str(left)})
            until(lambda: list(left.iterdir()))
            time.sleep(1)
            child.send_signal(number)
            said = child.communicate(timeout=LIMIT)[0]
            see(child.returncode == 1 and 'it was ended before the window was open' in said and 'Traceback' not in said
                and until(lambda: not list(left.iterdir())), f'ended by {number.name} while it starts', said, *left.iterdir())
        serve.communicate()
    taken.close()
    # After all that the first day begins.
    with Window(program, folder).start() as window:
        see('Entries in the journal: 0.' in window.first, 'and then the day begins', window.first)
        window.end()
        (folder / 'city.pb').write_text(CITY.replace('Library', 'Theatre'))
        told, status = at_terminal(window, passphrase_of('Head'))
        see(status is None and 'city.pb has changed since' in told, 'another file is taken while the journal has no entry', told)
        ended(window)
