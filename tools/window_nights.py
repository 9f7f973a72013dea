"""Tries the mornings: what changed overnight is told, and confirmed before a clerk signs in; settings."""
import hashlib, os, re, shutil, subprocess

from window_clerk import PYTHON, RUN, TOP, Clerk, Window, at_terminal, ended, passphrase_of, run
from window_copies import copies_of, is_whole, made_office
from window_seen import CITY, new_folder, see


def state_of(folder):
    return {it: it.read_bytes() for it in folder.iterdir() if it.is_file()}


def put_back(folder, state, copies=()):
    """Puts the files of a folder back as they were, and leaves these copies alone."""
    for it in set(state_of(folder)) - set(state):
        it.unlink()
    for it, data in state.items():
        it.write_bytes(data)
        it.chmod(0o600)
    for it in set(copies_of(folder / 'copies')) - set(copies):
        shutil.rmtree(it)


def try_overnight(program, work):
    """What changed overnight is told before a clerk signs in, and the head clerk confirms it."""
    window, folder, copies = made_office(program, work, 'night')
    copy, journal = copies_of(copies)[0], window.journal
    kept = state_of(folder)
    given = ['city.pb', 'city.journal', '--clerks', 'clerks.json', '--backup', copies,
             '--listen', f'127.0.0.1:{window.port}']
    text = journal.read_bytes()
    since = r'has changed since \d+ \w+ 20\d\d, \d\d:\d\d: '
    for what, path, data, said in (
            ('another ballot', journal, text.replace(b';v1;0;', b';v1;1;'), since + 'what it had then is not the same. Its entries then: 2.'),
            ('a journal that was cut', journal, text[:text.index(b'\n2;') + 1], since + 'it is shorter. Its entries then: 2.'),
            ('an empty journal', journal, b'', since + 'it is shorter')):
        see(path.read_bytes() != data, what)
        path.write_bytes(data)
        done = run(program, folder, *given)
        see(done.returncode == 1 and re.search(said, done.stderr) and f'The newest copy is {copy}.' in done.stderr
            and 'open at' not in done.stdout and 'Traceback' not in done.stderr, f'{what} is told', done)
        see(path.read_bytes() == data and copies_of(copies) == [copy], 'and nothing was opened')
        now, lost = {'a journal that was cut': (1, ' Entry 2 was answered, and will be lost if you go on.'),
                     'an empty journal': (0, ' Entries 1 to 2 were answered, and will be lost if you go on.'),
                     'another ballot': (2, '')}[what]
        loss = (f'run.py: Its entries now: {now}.{lost} To get back what the newest copy has (its entries: 2): '
                f'make a new folder, and type there: {PYTHON} {RUN} --restore {copy}\n')
        see(loss in done.stderr, 'and what would be lost, and how to get it back', done)
        told, status = at_terminal(window, 'wrong it is and long', given)
        see(status == 1 and re.search(said, told) and "not the head clerk's passphrase" in told and 'open at' not in told, 'not by another passphrase', told)
        told, status = at_terminal(window, passphrase_of('Head'), given)
        see(status is None and told.index('The newest copy') < told.index('open at'), f'{what} is opened when the head clerk confirms', told)
        said, status = ended(window)
        see(status == 0 and any(it['what'] == 'confirmed' for it in window.log()), 'and that is logged', said)
        with window.start():
            see('changed' not in window.first, 'and is asked once')
            window.end()
        put_back(folder, kept, [copy])
    try_unopenable(window, folder, kept)
    # A journal that was cut, or is gone, where JOURNAL.window is gone too: the log knows more, also by an
    # answer alone.
    (folder / 'city.journal.window').unlink()
    journal.unlink()
    done = run(program, folder, *given)
    see(done.returncode == 1 and 'lacks entry 2, which was answered (its entries: 0)' in done.stderr and not journal.exists(),
        'a journal that is gone is told, and none is made', done)
    journal.write_bytes(text[:text.index(b'\n2;') + 1])
    log = kept[folder / 'city.journal.log']
    for end in (log.index(b'\n', log.rindex(b'"what": "answered"')) + 1, len(log)):
        (folder / 'city.journal.log').write_bytes(log[:end])
        done = run(program, folder, *given)
        see(done.returncode == 1 and 'lacks entry 2, which was answered (its entries: 1)' in done.stderr
            and str(copy) in done.stderr and 'Give the right journal this name' in done.stderr,
            'a journal with less than the log says is told', done)
        see('Its entries now: 1. Entry 2 was answered, and will be lost if you go on.' in done.stderr,
            'and what would be lost', done)
    told, status = at_terminal(window, passphrase_of('Head'))
    see(status is None and 'Entries in the journal: 1.' in told, 'and opened when the head clerk confirms', told)
    ended(window)
    put_back(folder, kept, [copy])
    journal.unlink()
    told, status = at_terminal(window, passphrase_of('Head'))
    see(status == 1 and 'city.journal is gone' in told and str(copy) in told and 'log' not in told and not journal.exists(),
        'a journal that is gone is told with the newest copy', told)
    see('Entries that were answered: 2. Look for it, and put it back. To get back what the newest copy has '
        f'(its entries: 2): make a new folder, and type there: {PYTHON} {RUN} --restore {copy}' in told,
        'and with how many entries were answered, and the copy has', told)
    shorter = text[:text.index(b'\n2;') + 1]
    for names, best in (({'.kept': text}, '.kept'), ({'.kept1': text}, '.kept1'),
                        ({'.kept': shorter, '.kept1': text, '.kept2': shorter}, '.kept1')):
        for name, data in names.items():
            (folder / f'city.journal{name}').write_bytes(data)
        told, status = at_terminal(window, passphrase_of('Head'))
        see(status == 1 and 'city.journal is gone' in told and f'city.journal{best} is here (its entries: 2)' in told
            and str(copy) not in told and 'passphrase' not in told and not journal.exists(),
            f'where {best} lies beside, it is named', told)
        for name in names:
            (folder / f'city.journal{name}').unlink()
    journal.write_bytes(text)
    with window.start():
        ann = Clerk(window)
        ann.sign_in('Ann'), ann.ask('cast', 'v5', ['12'])
        window.child.kill(), window.child.communicate()
        window.start()
        see('Entries in the journal: 3.' in window.first, 'a day that a crash ended has nothing to tell', window.first)
        window.end()
    try_overwritten(program, work)


def try_unopenable(window, folder, kept):
    """What no passphrase can open is refused before one is asked for, with the words of `serve`."""
    text, city = window.journal.read_bytes(), (folder / 'city.pb').read_bytes()
    cut = text[:text.index(b'\n2;') + 1]
    for what, name, data, said in (
            ('an illegal journal', 'city.journal', text.replace(b';cast;', b';cost;'),
             rf'fault;audit;.*\n{window.journal}: line 2'),
            ('another FILE', 'city.pb', city.replace(b'Library', b'Theatre'),
             rf'fault;other-file\s+{window.journal} was made with another .pb file'),
            ('a kept journal', 'city.journal.kept', text, r'city\.journal\.kept is here .its entries: 2.')):
        if 'kept' in name:
            window.journal.write_bytes(cut)
        (folder / name).write_bytes(data)
        told, status = at_terminal(window, passphrase_of('Head'))
        see(status == 1 and re.search(said, told.replace('\r', '')) and 'the passphrase' not in told,
            f'{what} is refused before a passphrase is asked for', told, status)
        put_back(folder, kept, copies_of(folder / 'copies'))
    # Half a row behind an empty line, as a power cut leaves it, is repaired by `serve`: so the head clerk is asked.
    window.journal.write_bytes(cut + b'\n2;1;ca')
    told, status = at_terminal(window, 'wrong it is and long')
    see(status == 1 and 'the passphrase' in told and 'fault' not in told, 'what serve repairs is no such fault', told)
    put_back(folder, kept, copies_of(folder / 'copies'))


def refused_then_opened(window, what, *said, words=None):
    """Something is told with these words, and nothing is opened without the head clerk, who is asked once.
    Gives what was told."""
    done = run(window.program, window.folder,
        *(words or [window.file, window.journal, '--clerks', window.folder / 'clerks.json', *window.options]))
    see(done.returncode == 1 and all(it in done.stderr for it in said) and 'open at' not in done.stdout
        and 'Traceback' not in done.stderr, f'{what} is told', *said, done)
    told, status = at_terminal(window, 'wrong it is and long', words)
    see(status == 1 and 'open at' not in told, f'{what}: not by another passphrase', told)
    told, status = at_terminal(window, passphrase_of('Head'), words)
    told = ' '.join(told.split())
    see(status is None and all(' '.join(it.split()) in told and told.index(' '.join(it.split())) < told.index('open at') for it in said),
        f'{what} is opened when the head clerk confirms', told)
    ended(window)
    window.options = [it for it in window.options if it != '--other-file']
    told, status = at_terminal(window, 'none is asked for', words)
    see(status is None and 'The head clerk' not in told and 'passphrase' not in told, f'{what} is asked once',
        told)
    ended(window)
    return done.stderr


def try_older(program, work):
    """An older state of the folder, another desk's copies, and files that are gone: told, and confirmed."""
    window, folder, copies = made_office(program, work, 'older')
    states = [state_of(folder)]
    with window.start():
        ann, head = Clerk(window), Clerk(window)
        ann.sign_in('Ann'), head.sign_in('Head')
        seen = head.get('/head').seen
        see(f'The newest copy: {copies_of(copies)[-1]} (its entries: 2).' in seen,
            'the newest copy is named before this day has made one', seen)
        see('Entry 3 ' in ann.ask('cast', 'v3', ['99']).seen, 'a second day')
        window.end()
    states.append(state_of(folder))
    newest, put = copies_of(copies)[-1], lambda state: put_back(folder, state, copies_of(copies)[:2])
    lacks = f'{window.journal} lacks what the newest copy has (its entries: 3). Is this an older state of the'
    command = f'{PYTHON} {RUN} --restore {newest}'
    back = ('run.py: Its entries now: 2. To get back what the newest copy has (its entries: 3): make a new folder, '
            f'and type there: {command}')
    put(states[0])
    refused_then_opened(window, 'an older state of the whole folder', lacks, back,
        f'The newest copy is {newest}.')
    # The words followed as they are: in a new folder all is there.
    elsewhere = work / 'elsewhere'
    elsewhere.mkdir()
    done = subprocess.run(command.split(), cwd=elsewhere,
        env={**os.environ, 'PATH': f'{os.path.dirname(program)}:{os.environ["PATH"]}'}, capture_output=True)
    other = Window(program, elsewhere, options=window.options)
    with other.start():
        see('Entries in the journal: 3.' in other.first and 'passphrase' not in other.told,
            'as the words say, it is got back', done, other.first)
        other.end()
    # As many entries as the copy has, and others.
    put(states[0])
    subprocess.run([program, 'serve', window.file, window.journal], input=b'1;cast;v9;0\n',
        capture_output=True)
    refused_then_opened(window, 'another third entry', lacks)
    put({it: data for it, data in states[0].items() if it.name in ('city.pb', 'clerks.json')})
    said = refused_then_opened(window, "another desk's copy",
        'If it is another desk, its copies need another folder.', 'Its entries now: 0.')
    see('city.journal.window: not here' not in said, 'where nothing is recorded, no file is missed', said)
    for names in (['window'], ['log'], ['window', 'log']):
        put({it: data for it, data in states[1].items() if it.suffix[1:] not in names})
        gone = ' and '.join(f'{window.journal}.{it}' for it in names)
        refused_then_opened(window, f'{names} that is gone', f'The newest copy is {newest}.',
                            f'run.py: {gone}: not here, or empty, though {window.journal} has entries (3).')
    # Options alone: what was forgotten, or has changed, is told too.
    put(states[1])
    window.options = ['--min', '2']
    refused_then_opened(window, 'a forgotten option', 'the command: --backup was "copies", and is nothing.',
        'the command: --min was 0, and is 2.')
    with window.start():
        head.sign_in('Head')
        see('No copies are made: the window was started without “--backup”.' in head.get('/head').seen,
            'that no copies are made is said', head.get('/head').seen)
        window.end()
    put(states[1])
    (folder / 'office.toml').write_text('file = "city.pb"\njournal = "city.journal"\nclerks = "clerks.json"\n')
    done = run(program, folder, 'office.toml')
    see(done.returncode == 1
        and 'The last day began without a file of settings, and today began with one.' in done.stderr,
        'settings for the first time', done)


def try_corrected(program, work):
    """With --other-file the window says what is at which position, beside the file that a copy has."""
    window, folder, copies = made_office(program, work, 'corrected')
    rows = ['12;300.00;Library\n', '7;200.00;Park & ride <img src=x onerror=alert(1)>\n']
    kept = state_of(folder)
    was = '12 (Library, 300.00)', '7 (Park & ride <img src=x onerror=alert(1)>, 200.00)'
    former = hashlib.sha256(CITY.encode()).hexdigest()
    none = "each position has the same project, name and cost as before."
    long = CITY.replace('VOTES', ''.join(f'p{number};1.00;x\n' for number in range(30)) + 'VOTES', 1)
    for what, text, said in (
            ('two projects that changed places', CITY.replace(rows[0] + rows[1], rows[1] + rows[0]),
             [f'run.py: position {at} was {was[at]}, and is {was[1 - at]}. Ballots for the former one would '
              'count for the one there now!' for at in (0, 1)]),
            ('a name that hides itself', CITY.replace(';Library', f';"The\x1b[2J\natre{"x" * 99}"'),
             [f'is 12 (The [2J atre{"x" * 68}, 300.00).']),
            ('another name and cost', CITY.replace('300.00;Library', '310.00;Theatre'),
             [f'position 0 was {was[0]}, and is 12 (Theatre, 310.00).']),
            ('a project at the end', CITY.replace('VOTES', 'new;1.00;Bench\nVOTES', 1),
             ['position 5 was nothing, and is new (Bench, 1.00).']),
            ('many of them', long, ['position 24 was nothing, and is p19 (x, 1.00).', 'run.py: and 10 positions more.']),
            ('another title', CITY.replace('budget;1000.00', 'budget;1000.00\ndescription;x'), [none])):
        see(text != CITY, what)
        window.file.write_text(text)
        window.options = [*window.options, '--other-file']
        beside = f'run.py: {window.file} beside the former file, {copies_of(copies)[0]}/city.pb:'
        said = refused_then_opened(window, what, beside, *said, f'its SHA-256 was {former}.')
        see(('would count' in said) == ('places' in what) and '\x1b' not in said
            and (none in said) == ('title' in what), 'and nothing else', said)
        put_back(folder, kept, copies_of(copies)[:1])
    shutil.rmtree(copies_of(copies)[0])
    window.file.write_text(CITY.replace('Library', 'Theatre'))
    window.options.append('--other-file')
    refused_then_opened(window, 'without a copy',
        f'No copy has the former file (SHA-256 {former}), so nobody can tell here which positions have changed.')


def try_overwritten(program, work):
    """A journal that was overwritten during the day: in the evening nothing is to be written down."""
    for is_asked in (True, False):
        window, folder, copies = made_office(program, work, f'overwritten {is_asked}')
        with window.start():
            ann, text = Clerk(window), window.journal.read_bytes().rstrip(b'\n') + b'\n'
            ann.sign_in('Ann'), ann.ask('cast', 'v3', ['12'])
            whole, before = window.journal.read_bytes().rstrip(b'\n') + b'\n', copies_of(copies)
            window.journal.write_bytes(text + b'3;1;cast;v8;1;done\n4;1;cast;v9;1;done\n')
            if is_asked:
                see('not known' in ann.ask('cast', 'v4', ['7']).seen, 'the desk stops')
            said, status = window.end()
            digest = hashlib.sha256(window.journal.read_bytes()).hexdigest()
        kept = folder / 'city.journal.kept'
        see(kept.exists() and kept.read_bytes() == whole, 'serve has kept the text', *folder.iterdir())
        see(status == 1 and 'write both down' not in said and digest not in said and 'Entries: ' not in said
            and f"Write nothing down: {window.journal} is not the desk's. "
            'city.journal.kept is here (its entries: 3)' in said, 'the impostor is not to be written down', said, status)
        see(window.log()[-1]['what'] == 'not-copied' and [it for it in window.log() if it['what'] == 'ended'
            and 'digest' in it][-1]['digest'] is None, 'nor is its digest in the log', *window.log()[-3:])
        see('Copied' not in said and copies_of(copies) == before, 'nor is it copied', said, *copies_of(copies))


GOOD = '''file = "city.pb"
journal = "city.journal"
clerks = "clerks.json"
roll = "voters.csv"
min = 1
listen = "127.0.0.1:{port}"
backup = "copies"
title = "Participatory budget of Löwen & Co"
currency = "EUR"
language = "{words}"
count = "--measure cost"
'''


def try_settings(program, work):
    """A file of settings in place of options; what differs from the last day is told and confirmed."""
    folder = new_folder(work, 'settings')
    (folder / 'copies').mkdir()
    (folder / 'voters.csv').write_text('voter_id\nv1\nv2\nv3\n')
    path = folder / 'office.toml'
    for text, name in (('colour = "red"', "no setting 'colour'"), ('min = "two"', 'the setting min is a whole number'), ('min = -1', 'the setting min is a whole number'), ('min = true', 'the setting min is a whole number'), ('min = 1.5', 'the setting min is a whole number'),
                       ('keep-file-ballots = 1', 'the setting keep-file-ballots is true or false'),
                       ('title = 5', 'the setting title is a text'), ('title = "<b>Budget</b>"', 'the setting title has < or >'), ('title = "two\\nlines"', 'title'), ('title = ""', 'title'),
                       ('roll = ["voters.csv"]', 'roll'), ('name = ["a", 5]', 'name'), ('name = []', 'name'), ('name = "<x>"', 'the setting name has <'),
                       (f'name = {["a"] * 1000}', 'name'), ('currency = {a = 1}', 'the setting currency is'), ('backup-every = 0', 'backup-every'),
                       ('listen = "here"', 'listen'), ('listen = "127.0.0.1:99999"', 'listen'), ('"<script>" = 1', 'script'), ('[a.b]', "'a'"), ('title = "a"\ntitle = "b"', 'office.toml'),
                       ('title = ' + '[' * 30000, 'office.toml'), ('#' * 70000, 'office.toml'), ('title =', 'office.toml'),
                       ('title = "\ud800"', 'office.toml')):
        path.write_bytes(('file = "city.pb"\njournal = "city.journal"\nclerks = "clerks.json"\n' + text).encode(errors='surrogatepass'))
        done = run(program, folder, 'office.toml')
        see(done.returncode == 2 and name in done.stderr and 'Traceback' not in done.stderr and 'open at' not in done.stdout,
            f'{text[:40]} is refused', done)
    for key in ('file', 'journal', 'clerks'):
        path.write_text(''.join(line for line in GOOD.splitlines(True) if not line.startswith(key)))
        done = run(program, folder, 'office.toml')
        see(done.returncode == 2 and f'the key {key} is missing' in done.stderr, f'without {key}', done)
    see(run(program, folder, 'nowhere.toml').returncode == 2, 'a file that is not there')
    see(not (folder / 'city.journal').exists(), 'nothing was opened')
    window = Window(program, folder)
    text = GOOD.format(port=window.port, words=TOP / 'words/de.words')
    path.write_text(text)
    told, status = at_terminal(window, '', ['office.toml'])
    see(status is None and told.startswith(f'The window is open at http://127.0.0.1:{window.port}/'), 'one command opens the desk', told)
    ann, head = Clerk(window), Clerk(window)
    ann.sign_in('Ann'), head.sign_in('Head')
    see('not on the roll' in ann.ask('cast', 'eve', ['12']).seen and 'too few' in ann.ask('cast', 'v1', []).seen, 'roll and min hold')
    see('Entry 1 ' in ann.ask('cast', 'v1', ['12']).seen, 'a ballot')
    told, status = ended(window)
    copy = copies_of(folder / 'copies')[-1]
    see(status == 0 and {'office.toml', 'voters.csv', 'de.words'} <= {it.name for it in copy.iterdir()} and is_whole(copy), 'the copy has all', told)
    try_changed(window, folder, path, text)
    told, status = at_terminal(window, passphrase_of('Head'), ['office.toml'])
    head.cookies = {}
    head.sign_in('Head'), head.get('/head'), head.post('/shut', {'word': 'shut'})
    result = head.get('/result/result.html').body.decode()
    see('EUR' in result and "<html lang='de'" in result and 'Löwen &#38; Co' in result, 'the page of the result has language, currency and title', result[:300])
    ended(window)


def try_changed(window, folder, path, text):
    """Each change of a setting, and of the roll, is told, and confirmed before the desk opens."""
    told, status = at_terminal(window, '', ['office.toml'])
    see(status is None and 'was' not in told, 'the same settings are no change', told)
    ended(window)
    roll = folder / 'voters.csv'
    changed = lambda: roll.write_text(roll.read_text() + 'v4\n')
    for what, change, said in (('min', lambda: path.write_text(text.replace('min = 1', 'min = 2')), 'office.toml: min was 1, and is 2.'),
                               ('roll', lambda: path.write_text(text.replace('roll = "voters.csv"\n', '')), 'office.toml: roll was "voters.csv", and is nothing.'),
                               ('title', lambda: path.write_text(text.replace('title', 'title')), 'office.toml: roll was nothing, and is "voters.csv".'),
                               ('keep', lambda: path.write_text(text + 'keep-file-ballots = true\n'), 'office.toml: keep-file-ballots was nothing, and is true.'),
                               ('no keep', lambda: path.write_text(text), 'office.toml: keep-file-ballots was true, and is nothing.'),
                               ('the roll', changed, 'voters.csv, the roll, has changed since ')):
        change()
        refused_then_opened(window, what, said, words=['office.toml'])
    done = run(window.program, folder, 'city.pb', 'city.journal', '--clerks', 'clerks.json', '--listen', f'127.0.0.1:{window.port}')
    see(done.returncode == 1 and 'today began without one' in done.stderr, 'a day without the settings is told', done)
