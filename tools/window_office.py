"""Tries what the clerks' window meets on some days: a roll and a least number of projects, an answer that stays out, a `serve`
with many words."""
import concurrent.futures, json, os, re, signal, stat, subprocess, time

from window_clerk import (CLERKS, LIMIT, PYTHON, RUN, SCRIPT, TOP, Clerk, Window, at_terminal, ended, passphrase_of,
                          roll_given, stop, typed_at_terminal, until)
from window_seen import MARKUP, NAMES, new_folder, see

# Runs the window with another number of seconds for an answer.
HURRIED = SCRIPT % ('import desk; desk.ANSWERS = 1', '')

# A program that writes a million bytes on standard error before it serves.
WORDY = '''#!/bin/sh
case "$1" in serve) head -c 1000000 /dev/zero | tr '\\0' x >&2;; esac
exec '{}' "$@"
'''


def try_kept(program, work):
    """The ballots that came with the file are kept: the clerk is told before one is ticked, and `serve` decides."""
    folder, warning = new_folder(work, 'kept'), 'The desk takes no request for a voter of the city’s file'
    with Window(program, folder, options=['--keep-file-ballots']).start() as window:
        ann = Clerk(window)
        ann.sign_in('Ann')
        for voter, is_kept in (('old1', True), ('old2', True), ('Old1', False), ('v1', False)):
            page = ann.post('/voter', {'voter': voter})
            see((warning in page.seen) == is_kept, f'{voter} is told whether the ballot is kept', page.seen)
        for request, ids in (('replace', ['12']), ('withdraw', [])):
            page = ann.look(request, 'old1', ids)
            see(f'{warning}: it will not take this.' in page.seen, f'{request}: the check page warns', page.seen)
            see('is deleted' not in page.seen and 'will then have' not in page.seen and focused(page) == ['/voter'],
                f'{request}: it promises nothing, and Enter records nothing', page.seen, focused(page))
            page = ann.record(page)
            see('Not recorded: the desk takes no request for a voter of the city’s file.' in page.seen
                and not window.entries(), f'{request}: serve decides', page.seen)
        page = ann.look('cast', 'v1', ['12'])
        see(warning not in page.seen and focused(page) == ['/record'], 'no warning, and Enter records', page.seen)
        see('Entry 1 ' in ann.record(page).seen, 'a voter who is not in the file has a ballot')
        see('is deleted' in ann.look('replace', 'v1', ['7']).seen, 'which may be replaced')
        window.kill_serve()
        page = ann.ask('withdraw', 'old2')
        see('takes no request' in page.seen and len(window.entries()) == 1, 'also after serve was killed', page.seen)
        see('were changed before' not in window.told, 'no ballot of the file was changed', window.told)
    try_kept_late(program, work)


def focused(page):
    """Where the buttons of a check page lead that have the focus."""
    buttons = re.findall(r'<button([^>]*)>', page.text[page.text.index('action="/record"'):])
    return [(re.search('formaction="(.*?)"', it) or [0, '/record'])[1] for it in buttons if ' autofocus' in it]


def try_kept_late(program, work):
    """Ballots of the file that were changed before they were to be kept: the start says how many, and nothing offers
    to put one back."""
    folder = new_folder(work, 'late kept')
    with Window(program, folder).start() as window:
        ann = Clerk(window)
        ann.sign_in('Ann')
        # Of the file's voters the third one's ballot is not changed.
        for it in (('replace', 'old1', ['99']), ('withdraw', 'old2'), ('cast', MARKUP, ['12']), ('cast', 'v1', ['12'])):
            ann.ask(*it)
        answers = [row[5] for row in window.entries()]
        see(answers == ['done', 'done', 'already-cast', 'done'], 'four entries', answers)
        window.end()
        window.start()
        see('were changed before' not in window.told, 'without the option nothing is said of them', window.told)
        window.end()
        window.options = ['--keep-file-ballots']
        told, status = at_terminal(window, passphrase_of('Head'))
        see(status is None and 'Voters of the file whose ballots were changed before, and stay so: 2.' in told,
            'the start says how many', told)
        head = Clerk(window)
        head.sign_in('Head')
        for voter, is_offered in (('old1', False), ('old2', False), ('v1', True)):
            page = head.post('/voter', {'voter': voter})
            see('What was asked' in page.seen and ('action="/back"' in page.text) == is_offered
                and ('Put back' in page.seen) == is_offered and 'kept' not in page.seen,
                f'{voter}: what stood can be put back, or not', page.seen)
        ann.sign_in('Ann')
        page = ann.post('/voter', {'voter': 'old1'})
        see('can put back' not in page.seen, 'nor is that said to a clerk', page.seen)
        ended(window)


def try_roll(program, work):
    """A roll and a least number of projects: the clerk is told before a ballot is ticked, and `serve` decides."""
    folder = new_folder(work, 'roll')
    roll, warning = folder / 'voters.csv', 'This voter is not on the roll'
    roll.write_text('voter_id;street\n anna ;Main Street\n"q""uote"\nold1\n')
    with Window(program, folder, options=['--roll', roll, '--min', 2]).start() as window:
        ann = Clerk(window)
        ann.sign_in('Ann')
        for voter, is_there in (('anna', True), ('q"uote', True), ('old1', True), ('Anna', False), ('annb', False), ('old2', False),
                                ('voter_id', False), ('Main Street', False), ('a;b', False)):
            page = ann.post('/voter', {'voter': voter})
            see((warning in page.seen) != is_there and 'Tick projects: 2 at least, 3 at most.' in page.seen,
                f'{voter} is told whether it is on the roll, and how many projects', page.seen)
            see(is_there or 'anna' not in page.seen.replace(voter, ''), 'no id of the roll is told', page.seen)
        see(not window.entries(), 'looking up is no request', window.entries())
        # The window only warns: it is sent, and serve refuses it.
        page = ann.ask('cast', 'annb', ['12', '7'])
        see('Not recorded: this voter is not on the roll.' in page.seen and not window.entries(), 'serve decides', page.seen)
        warned = 'A ballot has 2 at least, 3 at most: the desk will not take this one.'
        for ids, is_warned in ((['12'], True), ([], True), (['12', '7'], False), (['12', '7', '99'], False),
                               (['12', '7', '99', '<script>document.title="taken"</script>'], True)):
            page = ann.look('cast', 'anna', ids)
            see((warned in page.seen) == is_warned, f'{len(ids)} projects: the check page warns, or not', page.seen)
        page = ann.ask('cast', 'anna', ['12'])
        see('Not recorded: the ballot has too few projects.' in page.seen and not window.entries(), 'and serve decides', page.seen)
        page = ann.post('/voter', {'voter': 'anna', 'form': page.field('form', '/voter') or form_of(page)})
        see(page.text.count(' checked') == 1, 'the way back has the ticks', page.seen)
        see('Entry 1 ' in ann.ask('cast', 'anna', ['12', '7']).seen, 'a ballot that the options allow')
        see(warned not in ann.look('withdraw', 'anna').seen, 'a withdrawal has no projects')
        window.kill_serve()
        page = ann.ask('cast', 'annb', ['12', '7'])
        see('this voter is not on the roll' in page.seen and len(window.entries()) == 1, 'the roll holds after serve was killed', page.seen)
        # The roll of a day is the one that it began with.
        made = roll_given(window.serve_id())
        roll.write_text('annb\n')
        see(warning in ann.post('/voter', {'voter': 'annb'}).seen
            and 'not on the roll' in ann.ask('cast', 'annb', ['12', '7']).seen, 'a roll that is changed')
        said, status = window.end()
        see(status == 0 and not made.parent.exists(), 'its folder is gone in the evening', said, made)
    see(window.audit().stdout == 'entries;1;open\n', 'the journal is audited', window.audit())
    try_odd_rolls(program, folder)
    for words, said in ((['--min', 'two'], '--min'), (['--min', '-1'], '--min')):
        done = subprocess.run([str(it) for it in (PYTHON, RUN, window.file, window.journal, '--clerks', folder / 'clerks.json',
                                                  '--program', program, *words)], capture_output=True, text=True, timeout=LIMIT)
        see(done.returncode in (1, 2) and said in done.stderr + (folder / 'city.journal.words').read_text(), f'{words} is refused', done)


ODD = ('anna\n"q""uote"\n \u2003spaced \n\nvoter_id\nx;street\n"semi;colon"\n;nobody\nco,mma\n"line\r\nend"\n'
       'lone\rreturn\r\nin"side\nanna\nlast')
NAMES_OF = 'import json, roll, sys; print(json.dumps(list(roll.names_of(sys.argv[1])[0])))'


def try_odd_rolls(program, folder):
    """Of a roll of ids alone the window says what `serve` decides, row by row."""
    voters = ['anna', 'Anna', 'q"uote', 'spaced', 'voter_id', 'x', 'street', 'semi;colon', 'nobody', 'co,mma', 'co',
              'line\r\nend', 'line', 'lone', 'return', 'in"side', 'last', 'x;street']
    for text in (ODD, '\ufeff' + ODD, 'voter_id\n' + ODD, ' voter_id \n' + ODD, '\n\n' + ODD.replace('anna', 'ben'), ''):
        (folder / 'odd.csv').write_text(text, newline='')
        rows = ''.join('1;cast;"' + it.replace('"', '""') + '";\n' for it in voters)
        serve = [program, 'serve', '--roll', folder / 'odd.csv', '--min', '1', folder / 'city.pb', folder / 'odd.journal']
        done = subprocess.run(serve, input=rows.encode(), capture_output=True)
        faults = [it.split(b';') for it in done.stdout.splitlines() if it.startswith(b'fault;script')]
        decided = [it[3] == b'TooFew' for it in faults]
        told = subprocess.run([PYTHON, '-B', '-c', NAMES_OF, folder / 'odd.csv'], cwd=TOP / 'window',
                              capture_output=True, text=True)
        see(decided == [it in json.loads(told.stdout or '[]') for it in voters], 'the window says of a roll what serve decides',
            text[:20], list(zip(voters, decided)), told)


def form_of(page):
    """The one-time id that the button of a page sends."""
    return page.text.split('<button name="form" value="')[1].split('"')[0]


def try_late(program, work):
    """An answer that stays out for longer than a clerk waits: it is told as not known, and known once it has come."""
    folder = new_folder(work, 'late')
    (folder / 'hurried.py').write_text(HURRIED)
    with Window(program, folder, run=folder / 'hurried.py').start() as window:
        ann, ben = Clerk(window), Clerk(window)
        ann.sign_in('Ann'), ben.sign_in(NAMES[2])
        form, others, number = ann.look('cast', 'v1', ['12']), ben.look('cast', 'v1', ['7']), window.serve_id()
        stop(number)
        try:
            begun = time.monotonic()
            page = ann.record(form)
            see('It is not known whether this was recorded.' in page.seen and 1 <= time.monotonic() - begun < 50,
                'after the wait it is not known', page.seen, time.monotonic() - begun)
            page = ann.get('/')
            see('no answer came: cast, voter v1. It may still come.' in page.seen and 'It was not recorded' not in page.seen,
                'it may still come', page.seen)
            page = ann.post('/voter', {'voter': 'v1'})
            see('It may still come.' in page.seen and 'This is settled' not in page.seen, 'and cannot be settled yet', page.seen)
            page = ben.record(others)
            see('Nothing was sent.' in page.seen and 'another request came. Look again.' in page.seen, 'nothing is sent over it', page.seen)
            see('not known' in ann.record(form).seen, 'a second sending waits as well, and sends nothing')
        finally:
            os.kill(number, signal.SIGCONT)
        see(until(lambda: 'no answer came' not in ann.get('/').seen), 'once it has come nothing is asked')
        page = ann.record(form)
        see('Recorded. Entry 1 of the journal: cast, voter v1.' in page.seen, 'and the page that is sent again has it', page.seen)
        see([row[1:] for row in window.entries()] == [['1', 'cast', 'v1', '0', 'done']], 'it was sent once', window.entries())
        see('Entry 2 ' in ben.ask('cast', 'v2', ['7']).seen, 'the day goes on')
        window.end()


# Runs the window where another thread than the main one gets each signal, which waits meanwhile.
ELSEWHERE = SCRIPT % ('''real = os.read
os.read = lambda *words: (words[1] == 1 and signal.pthread_sigmask(signal.SIG_BLOCK, [signal.SIGINT]), real(*words))[1]''', '')


def try_words(program, work):
    """A `serve` that writes more on standard error than a pipe holds is not held up, and its words are kept."""
    folder = new_folder(work, 'words')
    wordy = folder / 'wordy'
    wordy.write_text(WORDY.format(program))
    wordy.chmod(0o755)
    with Window(wordy, folder, options=['--min', 1]) as window:
        window.start()
        ann, words = Clerk(window), folder / 'city.journal.words'
        ann.sign_in('Ann')
        see('Entry 1 ' in ann.ask('cast', 'v1', ['12']).seen, 'a ballot beside many words')
        see('too few projects' in ann.ask('cast', 'v2').seen, 'a refusal')
        window.kill_serve()
        see('Entry 2 ' in ann.ask('cast', 'v2', ['12']).seen, 'and started again, with as many words')
        said, status = window.end()
        text = words.read_bytes()
        see(status == 0 and text.count(b'x') >= 2_000_000 and b'row 2' in text,
            'the words are in their file', said, len(text))
        see(stat.S_IMODE(words.stat().st_mode) == 0o600, 'for this account alone')
        starts = re.findall(rb'(20\d\d-\d\d-\d\dT\S+Z): pb_app serve is started', text)
        see(len(starts) == 2 and starts == sorted(starts), 'with the time of each start', starts)
    (folder / 'elsewhere.py').write_text(ELSEWHERE)
    with Window(program, folder, options=['--min', 1], run=folder / 'elsewhere.py').start() as window:
        time.sleep(1)       # The main thread waits by then.
        try:
            said, status = window.end()
        except subprocess.TimeoutExpired:
            said, status = 'it goes on', None
        see(status == 0 and 'Entries: 2,' in said, 'a signal ends the window, whichever thread gets it', said,
            status)


def try_names(program, work):
    """Names are the same in capital and small letters; the clerks are listed; turnout by day and clerk."""
    folder = new_folder(work, 'names')
    path = folder / 'clerks.json'
    clerks = lambda *words: subprocess.run([str(it) for it in (PYTHON, '-B', CLERKS, '--clerks', path, *words)], capture_output=True, text=True,
                                           stdin=subprocess.DEVNULL)
    see(clerks('close', 'cY').stdout == 'Cy is clerk 3, and can no longer sign in\n', 'a name in other letters')
    done = clerks('list')
    see(done.stdout == '0 Head, the head clerk\n1 Ann\n2 Ben & "Co" <b>\n3 Cy, closed\n' and done.returncode == 0, 'the clerks are listed', done)
    see(clerks('list', 'Ann').returncode == 2 and clerks('add').returncode == 2, 'list takes no name, and add takes one')
    said, status = typed_at_terminal([PYTHON, CLERKS, '--clerks', path, 'add', 'ANN'], ['long enough it is'] * 2)
    see(status == 1 and 'there is a clerk Ann already' in said, 'no second name in other letters', said)
    with Window(program, folder).start() as window:
        ann, head = Clerk(window), Clerk(window)
        see('clerk 1' in ann.sign_in('aNN', passphrase_of('Ann')).seen, 'a clerk signs in by other letters')
        head.sign_in('HEAD', passphrase_of('Head'))
        ann.ask('cast', 'v1', ['12']), ann.ask('cast', 'v2', ['12']), ann.ask('replace', 'v2', ['7']), ann.ask('withdraw', 'old1')
        head.ask('cast', 'v3', ['12']), ann.ask('cast', 'v4', ['nowhere'])
        turnout = r'Withdrawn ?(20\d\d-\d\d-\d\d) ?Head \(clerk 0, you\) ?1 ?0 ?0 ?\1 ?Ann \(clerk 1\) ?2 ?1 ?1 '
        see(re.search(turnout, head.get('/head').seen), 'what was recorded by day and clerk', head.get('/head').seen)
        window.end()
        yesterday = (folder / 'city.journal.log').read_text().replace('{"time": "20', '{"time": "19')
        (folder / 'city.journal.log').write_text(yesterday)
        window.start()
        ann.cookies, head.cookies = {}, {}
        ann.sign_in('ann', passphrase_of('Ann')), head.sign_in('Head')
        ann.ask('cast', 'v5', ['12'])
        see(re.search(turnout.replace('20', '19') + r'?20\d\d-\d\d-\d\d ?Ann \(clerk 1\) ?1 ?0 ?0 ', head.get('/head').seen),
            'each day by itself, also after a start', head.get('/head').seen)
        # A voter's id is another one in other letters, which is told.
        words = 'This id is new here. One that differs in capital letters alone is known'
        see([words in ann.post('/voter', {'voter': it}).seen for it in ('OLD2', 'V1', 'old2', 'v1', 'V9', '12')]
            == [True, True, False, False, False, False], 'an id that differs in capital letters alone')
        # Wrong tries count for a name in any letters.
        for name in ('Ben', 'BEN', 'bEN'):
            page = Clerk(window, '127.0.0.9').sign_in(name + ' & "Co" <b>', 'wrong')
        see(page.status == 429, 'and so do wrong tries', page.seen)
        window.end()


def try_after_shut(program, work):
    """After a shut no page invites to ask again."""
    folder = new_folder(work, 'after')
    with Window(program, folder).start() as window:
        ann, head = Clerk(window), Clerk(window)
        ann.sign_in('Ann'), head.sign_in('Head')
        form, number = ann.look('cast', 'v1', ['12']), window.serve_id()
        stop(number)
        with concurrent.futures.ThreadPoolExecutor(1) as pool:
            waiting = pool.submit(ann.record, form)
            window.await_asked('v1')
            os.kill(number, signal.SIGKILL)
            see('not known' in waiting.result().seen, 'a request without an answer')
        see('ask again' in ann.get('/').seen, 'which a page speaks of')
        head.get('/head')
        page = head.post('/shut', {'word': 'shut'})
        see('Entry 1 ' in page.seen, 'the desk is shut', page.seen)
        for clerk, path in ((ann, '/'), (head, '/head'), (head, '/')):
            page = clerk.get(path)
            see('ask again' not in page.seen and ('It was not recorded.' in page.seen) == (path == '/head' or clerk is ann),
                f'{path} says what came of it, and not to ask again', page.seen)
        page = ann.post('/voter', {'voter': 'v1'})
        see('ask again' not in page.seen and '/look' not in page.text, 'nor does the page of the voter', page.seen)
        window.end()
