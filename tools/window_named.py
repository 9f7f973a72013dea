"""Tries names on the roll: shown to the clerk alone; rolls that are made to hurt."""
import csv, os, pathlib, stat, subprocess, tempfile, time

import browser
from browser_tab import Tab
from window_clerk import LIMIT, PYTHON, RUN, Clerk, Window, at_terminal, ended, passphrase_of, roll_given, until
from window_day import look_at, sign_in
from window_seen import new_folder, see

NAMES = {'anna': 'Anna Müller', 'old1': '<img src=x onerror=alert(1)> & "Co"', 'bob': 'Bob\nVoter old2',
         'dora': 'Dora \u202eevil',
         'q"uote': "O'Neil; Pat", 'long': 'L' * 5000, 'nameless': ''}
WARNING = 'This voter is not on the roll'


def row_of(*fields):
    """A row with each field in quotation marks."""
    return ';'.join('"' + it.replace('"', '""') + '"' for it in fields) + '\n'


def memory_of(window):
    """How many MB the window has in memory."""
    pages = int(pathlib.Path(f'/proc/{window.child.pid}/statm').read_text().split()[1])
    return pages * os.sysconf('SC_PAGE_SIZE') // 1_000_000


def try_named(program, work):
    """A name is shown with its id before a ballot is taken, and stands nowhere else."""
    folder = new_folder(work, 'named')
    roll = folder / 'voters.csv'
    roll.write_text('\ufeffstreet;voter_id;name\n' + ''.join(row_of('Main Street', f' {voter} ', name)
                                                             for voter, name in NAMES.items())
                    + 'Side Street;short\n', encoding='utf-8')
    with Window(program, folder, options=['--roll', roll]).start() as window:
        ann = Clerk(window)
        ann.sign_in('Ann')
        for voter, shown in (('anna', 'anna: Anna Müller '),
                             ('old1', 'old1: <img src=x onerror=alert(1)> & "Co" '),
                             ('bob', 'bob: Bob Voter old2 '), ('dora', 'dora: Dora evil '),
                             ('q"uote', 'q"uote: O\'Neil; Pat '),
                             ('long', f"long: {'L' * 200} "), ('nameless', 'nameless '), ('short', 'short ')):
            page = ann.post('/voter', {'voter': voter})
            see(f'Voter {shown}' in page.seen.replace('  ', ' ') and WARNING not in page.seen,
                f'the name of {voter}', page.seen)
            see('<img' not in page.text.split('Projects</legend>')[0] and '\u202e' not in page.text,
                'markup and turned lines are text', voter)
        for voter in ('name', 'Main Street', 'voter_id', 'Anna Müller', 'old2'):
            page = ann.post('/voter', {'voter': voter})
            see(WARNING in page.seen and 'Müller' not in page.seen.replace(voter, ''),
                f'{voter} is not on the roll', page.seen)
        page = ann.look('cast', 'anna', ['12'])
        see('voter anna, Anna Müller.' in page.seen, 'the check page has the name', page.seen)
        see('Entry 1 ' in ann.record(page).seen, 'a ballot is taken')
        ann.ask('cast', 'bob', ['7']), ann.ask('cast', 'Anna', ['7'])
        see(ann.window.entries()[1:] == [['2', '1', 'cast', 'bob', '1', 'done']], 'the roll decides',
            window.entries())
        made = {roll_given(number) for number in window.serves()}
        see(len(made) == 1 and roll not in made, 'each serve has the roll that the window made', made)
        path = made.pop()
        see(path.read_text().splitlines()[:4] == ['"voter_id"', '"anna"', '"old1"', '"bob"'], 'of ids alone',
            path.read_text())
        see(stat.S_IMODE(path.stat().st_mode) == 0o600 and stat.S_IMODE(path.parent.stat().st_mode) == 0o700,
            'for this account alone')
        ann.ask('cast', 'nobody', ['12'])
        window.kill_serve()
        see('Entry 3 ' in ann.ask('cast', 'dora', ['12']).seen and path.exists(),
            'and so after serve was killed')
        try_in_browser(window)
        said, _ = window.end()
        see(not path.parent.exists(), 'and is gone in the evening', path)
        for file in folder.iterdir():
            found = [it for it in ('Müller', 'M\\u00fcller', 'Neil', 'Voter old2', 'evil')
                     if it in file.read_text(errors='replace')]
            see(file == roll or not found, f'no name stands in {file.name}', found)
        see(not any(it in said + window.told for it in ('Müller', 'Neil')), 'and none at the terminal', said)
    try_bad_rolls(program, new_folder(work, 'bad'))
    try_killed(program, work)
    try_many_names(program, work)


def try_in_browser(window):
    """Names of markup, and of many letters without a space, on the voter's page and on the check page."""
    if not browser.installed():
        return print('try_window: no browser is installed, so names were not looked at')
    with browser.Browser(browser.installed()) as led:
        tab = Tab(led)
        sign_in(tab, window, 'Ann')
        for voter in ('old1', 'long'):
            tab.type(voter)
            tab.enter()
            see(NAMES[voter][:200] in tab.text('main'), f'the name of {voter} in a browser', tab.text('main'))
            look_at(tab, f'named-{voter}', None)
            tab.run('document.getElementById("search").focus()')
            tab.type('12 7')
            tab.enter()
            see(NAMES[voter][:200] in tab.text('main') and tab.text('h1') == 'Check before you record',
                'and before it is recorded', tab.text('main'))
            look_at(tab, f'named-{voter}-check', None)
            tab.press('Escape', loads=True)
        see(not tab.fetched(window), 'no address has a name', tab.fetched(window))


def try_bad_rolls(program, folder):
    """Rolls that are refused, in words that name nobody, and leave nothing in the temporary folder."""
    roll = folder / 'bad.csv'
    command = [PYTHON, RUN, folder / 'city.pb', folder / 'city.journal', '--clerks', folder / 'clerks.json',
               '--program', program,
               '--listen', '127.0.0.1:0', '--roll', roll]
    for what, text, words in (
            ('a header without voter_id', b'id;name\nv1;Ann Secret\n',
             'its header does not have voter_id once'),
            ('no header', b'v1;Ann Secret\nv2;Bo Secret\n', 'its header does not have voter_id once'),
            ('voter_id twice', b'voter_id;name;voter_id\nv1;Ann Secret;v2\n',
             'its header does not have voter_id once'),
            ('two columns of names', b'voter_id;name;name\nv1;Ann;Secret\n', 'name once at most'),
            ('an id twice', b'voter_id;name\nv1;Ann Secret\nv2;Bo\n v1 ;Cy\n',
             'its row 4 has an id that another row has too'),
            ('a row without an id', b'voter_id;name\nv1;Ann Secret\n\n;Bo\n', 'its row 4 has no voter_id'),
            ('a mark that is not closed', b'voter_id;name\nv1;"Ann Secret\nv2;Bo\nv3;Cy\n',
             'in or after row 1 is not closed'),
            ('another encoding', b'voter_id;name\nv1;M\xfcller Secret\n', 'is not UTF-8 text')):
        roll.write_bytes(text)
        with tempfile.TemporaryDirectory() as temporary:
            done = subprocess.run([str(it) for it in command], capture_output=True, text=True, timeout=LIMIT,
                                  env={**os.environ, 'TMPDIR': temporary})
            said = done.stdout + done.stderr
            see(done.returncode == 1 and words in said and 'Traceback' not in said and 'Secret' not in said,
                f'{what} is refused', said)
            see(not os.listdir(temporary), f'{what}: nothing is left', os.listdir(temporary))


def try_killed(program, work):
    """What a killed window has left of the roll is deleted at the next start; what another one uses is not."""
    before = os.environ.get('TMPDIR')
    with tempfile.TemporaryDirectory() as temporary:
        os.environ['TMPDIR'] = temporary
        try:
            windows = []
            for name in ('killed', 'other'):
                folder = new_folder(work, name)
                (folder / 'voters.csv').write_text('voter_id;name\nv1;Ann Secret\n')
                windows.append(Window(program, folder, options=['--roll', folder / 'voters.csv']))
            killed, other = windows
            with other.start():
                kept = set(os.listdir(temporary))
                with killed.start():
                    left = set(os.listdir(temporary)) - kept
                    killed.child.kill()
                    killed.child.communicate()
                see(len(kept) == len(left) == 1 and left <= set(os.listdir(temporary)), 'a killed window leaves its roll',
                    *os.listdir(temporary))
                killed.options = []
                at_terminal(killed, passphrase_of('Head'))
                see(set(os.listdir(temporary)) == kept, 'its next start deletes it, also without a roll',
                    *os.listdir(temporary))
                see((pathlib.Path(temporary) / min(kept) / 'roll.csv').exists(), 'and not what another window uses')
                ended(killed)
                other.end()
            see(not os.listdir(temporary), 'in the evening nothing is left', *os.listdir(temporary))
        finally:
            os.environ.pop('TMPDIR')
            os.environ |= {'TMPDIR': before} if before else {}


def try_many_names(program, work):
    """A million names: how long the start takes, and how much memory."""
    folder = new_folder(work, 'many')
    roll = folder / 'voters.csv'
    with open(roll, 'w', encoding='utf-8') as file:
        file.write('voter_id;name\n')
        file.writelines(f'v{number:07};Given Name {number} of a Family\n' for number in range(1_000_000))
    bare = Window(program, folder).start()
    before = memory_of(bare)
    bare.end()
    (folder / 'city.journal.window').unlink()
    begun = time.monotonic()
    with open(roll, encoding='utf-8', newline='') as file:
        list(csv.reader(file, delimiter=';'))
    read, begun = time.monotonic() - begun, time.monotonic()
    with Window(program, folder, options=['--roll', roll]).start() as window:
        lasted, ann = time.monotonic() - begun, Clerk(window)
        ann.sign_in('Ann')
        more = memory_of(window) - before
        page = ann.post('/voter', {'voter': 'v0999999'})
        see('v0999999: Given Name 999999 of a Family' in page.seen and WARNING not in page.seen,
            'the last of a million names', page.seen)
        see(until(lambda: WARNING in ann.post('/voter', {'voter': 'v1000000'}).seen),
            'and who is not on the roll')
        print(f'try_window: named: a million names: the start took {lasted:.1f} seconds and {more} MB of memory')
        see(lasted < 100 * read and more < 500, 'a million names are 100 times as long as reading them, and 500 MB, at most',
            lasted, read, more)
        window.end()
