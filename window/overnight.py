"""What changed overnight: JOURNAL.window has what a day left behind; the next morning is compared with it."""
import contextlib, datetime, getpass, itertools, json, os, shlex, shutil, subprocess, sys, threading

import clerks, copies, disk, log, roll
from election import Election, Fault, plain

# A minute, and after how many seconds the watch looks whether the folder of the copies is there; how many
# positions are named that are not as they were.
MINUTE, LOOKS, NAMED = 60, 10, 20
RUN = os.path.join(os.path.dirname(os.path.abspath(__file__)), 'run.py')


def day_of(time):
    """A time of the log, as the office's clock shows it."""
    return f'{datetime.datetime.fromisoformat(time).astimezone():%-d %B %Y, %H:%M}'


def load(journal):
    """What the last day left behind; nothing before the first one."""
    try:
        with open(f'{journal}.window', encoding='utf-8') as file:
            state = json.load(file)
        if not {'file', 'roll', 'settings', 'entries'} <= set(state) or not day_of(state['time']):
            raise ValueError('it lacks something')
        state['journal']['length'] + 0, state['journal']['sha256'] + ''
        return state
    except FileNotFoundError:
        return None
    except (OSError, ValueError, KeyError, TypeError) as why:
        raise Fault(f'{journal}.window cannot be read, so nobody knows what changed overnight: {why}. Compare {journal} '
                    f'with the newest copy, and then move {journal}.window to another folder') from None


def journal_changed(state, journal):
    """What is not as it was in the part of the journal that the last day left, in words; it may have grown."""
    since, kept = day_of(state['time']), state['journal']
    had = f'Its entries then: {state["entries"]}.'
    if not os.path.exists(journal):
        return [f'{journal} is gone: it was there on {since}. {had}']
    with open(journal, 'rb') as file:
        front = file.read(kept['length'])
    if len(front) < kept['length']:
        return [f'{journal} has changed since {since}: it is shorter. {had}']
    if disk.digest_of(front) != kept['sha256']:
        return [f'{journal} has changed since {since}: what it had then is not the same. {had}']
    return []


def changes(state, given, now):
    """What besides the journal is not as it was when the last day ended, in words."""
    since, told = day_of(state['time']), []
    if now['file'] != state['file']:
        told.append(f'{given.file} has changed since {since}: its SHA-256 was {state["file"]}.')
    if now['roll'] and state['roll'] and now['roll'] != state['roll']:
        told.append(f'{given.roll}, the roll, has changed since {since}.')
    return told + settings_changed(state['settings'], given.known, given.settings)


def settings_changed(before, now, path):
    """Which settings, or options, differ from those of the last day, in words."""
    if before is None:      # An older window kept no options.
        return []
    begun = ['with' if 'file' in it else 'without' for it in (before, now)]
    if len(set(begun)) > 1:
        return [f'The last day began {begun[0]} a file of settings, and today began {begun[1]} one.']
    show = lambda it: 'nothing' if it in (None, [], '') else json.dumps(it, ensure_ascii=False)
    return [f'{path or "the command"}: {key} was {show(before.get(key))}, and is {show(now.get(key))}.'
            for key in sorted({*before, *now}) if before.get(key) != now.get(key)]


def projects_changed(before, now):
    """What a corrected file has at each position that is not as before, in words; ballots name positions."""
    show = lambda it: f'{plain(it.id, 40)} ({plain(it.name, 80)}, {it.cost})' if it else 'nothing'
    others, told = [], []
    for place, (old, new) in enumerate(itertools.zip_longest(before.projects, now.projects)):
        words = f'position {place} was {show(old)}, and is {show(new)}.'
        if old and (not new or new.id != old.id):
            others.append(f'{words} Ballots for the former one would count for the one there now!')
        elif old != new:
            told.append(words)
    told = others + told
    more = [f'and {len(told) - NAMED} positions more.'] if len(told) > NAMED else []
    return told[:NAMED] + more or ['each position has the same project, name and cost as before.']


def confirm(told, newest, head, log):
    """Says what changed, before anybody can sign in; goes on only with the passphrase of the head clerk."""
    for words in told:
        print(f'run.py: {words}', file=sys.stderr)
    print(f'The newest copy is {newest}.' if newest else 'No copy is known here.', file=sys.stderr)
    log.write('changed-overnight', changes=told)
    if not sys.stdin.isatty():
        raise Fault('The head clerk has to confirm this at a terminal. Nothing was opened')
    passphrase = ''
    with contextlib.suppress(EOFError):
        passphrase = getpass.getpass(f"To go on as it is, {head['name']} types the passphrase: ")
    if not clerks.is_right(head, passphrase):
        log.write('not-confirmed')
        raise Fault("this is not the head clerk's passphrase. Nothing was opened")
    # From here on the log asks for no entry that this journal does not have.
    log.write('confirmed', True, clerk=0, entries=0, changes=told)
    log.entries = 0


class Keeper:
    """Keeps JOURNAL.window, and makes the copies: each time by `keep`, and every so many minutes."""

    def __init__(self, given, log):
        self.given, self.log, self.turn, self.parts = given, log, threading.RLock(), copies.parts_of(given)
        self.copies = copies.Copies(given.backup, given.program, self.parts) if given.backup else None
        self.now = {it: disk.digest_in(vars(given)[it]) for it in ('file', 'roll')}
        self.trouble, self.is_warned, self.is_over = None, False, threading.Event()

    def compare(self, head, election):
        """Tells what changed overnight, and lets the head clerk confirm it."""
        journal, state, known = self.given.journal, load(self.given.journal), self.log.entries
        count, newest = copies.count_in(journal) or 0, self.copies and self.copies.newest()
        lost = journal_changed(state, journal) if state else []
        if not lost and count < known:
            lost = [f'{journal} lacks entry {known}, which was answered (its entries: {count}). '
                    'Give the right journal this name.']
        if kept := copies.kept_beside(journal):
            raise Fault(kept if os.path.exists(journal) or not lost else f'{lost[0]} But {kept}')
        if lost and not os.path.exists(journal):
            answered = f' Entries that were answered: {known}.' if known else ''
            raise Fault(f'{lost[0]}{answered} Look for it, and put it back.{self.way_back(newest)}')
        if not lost and newest and not self.has_all_of(newest):
            lost = [f'{journal} lacks what the newest copy has{self.size_of(newest)}. Is this an older state '
                    'of the folder? If it is another desk, its copies need another folder.']
        told, is_here = list(lost), {'window': state, 'log': self.log.is_known}
        told += changes(state, self.given, self.now) if state else []
        if gone := ' and '.join(f'{journal}.{it}' for it in is_here if count and not is_here[it]):
            told.append(f'{gone}: not here, or empty, though {journal} has entries ({count}). If the window '
                        'took these, nobody knows what has changed since: compare with the newest copy.')
        if lost:
            told.append(self.losses(count, known or (state or {}).get('entries', 0), newest))
        if told:
            self.try_out()
            confirm(told + self.corrected(election), newest, head, self.log)

    def has_all_of(self, copy):
        """Whether the journal begins with what a copy has."""
        copied = self.journal_in(copy)
        with contextlib.suppress(OSError), open(copied, 'rb') as one, open(self.given.journal, 'rb') as other:
            return other.read(len(text := one.read())) == text
        return not copies.count_in(copied)

    def journal_in(self, copy):
        return os.path.join(copy, os.path.basename(self.given.journal))

    def corrected(self, election):
        """With --other-file: what is at another position than in the former file, in words."""
        given = self.given
        with contextlib.suppress(OSError), open(f'{given.journal}.file', errors='replace') as file:
            if given.other_file and (former := file.readline()[:64]) != self.now['file']:
                if path := self.copies and self.copies.with_digest(former):
                    told = projects_changed(Election(given.program, path, 0), election)
                    return [f'{given.file} beside the former file, {path}:', *told]
                return [f'No copy has the former file (SHA-256 {former}), so nobody can tell here which '
                        'positions have changed. Each project has to be at the position that it had there.']
        return []

    def try_out(self):
        """Has `serve` open a copy of the journal. What no passphrase can open is so refused before one is asked for:
        a journal that is not legal, and another FILE."""
        given, name = self.given, os.path.basename(self.given.journal)
        with roll.own_folder() as folder:
            copy = os.path.join(folder, name)
            for end in ('', '.file'):
                with contextlib.suppress(FileNotFoundError):
                    shutil.copy(given.journal + end, copy + end)
            command = [given.program, 'serve', '--by-id', *['--other-file'] * given.other_file, given.file, copy]
            done = subprocess.run(command, stdin=subprocess.DEVNULL, capture_output=True)
        if done.stdout.startswith((b'fault;audit', b'fault;other-file')):
            words = (done.stdout + done.stderr).decode(errors='replace').strip()
            raise Fault(words.replace(copy, given.journal))

    def losses(self, count, known, newest):
        """What will be lost if the head clerk goes on with a journal that is not as it was, in words."""
        words = f'Its entries now: {count}.'
        if count < known:
            lost = f'Entry {known} was' if count + 1 == known else f'Entries {count + 1} to {known} were'
            words += f' {lost} answered, and will be lost if you go on.'
        return words + self.way_back(newest)

    def way_back(self, copy):
        """How to get back what the newest copy has, in words that can be typed as they are."""
        command = copy and shlex.join([sys.executable, RUN, '--restore', copy])
        return copy and (f' To get back what the newest copy has{self.size_of(copy)}: make a new folder, and '
                         f'type there: {command}') or ''

    def size_of(self, copy):
        """How many entries a copy has, in words; nothing where that cannot be read."""
        count = copies.count_in(self.journal_in(copy))
        return '' if count is None else f' (its entries: {count})'

    def files(self):
        """The files of the office as they are now, by their names, and what JOURNAL.window has of them."""
        time = datetime.datetime.now(datetime.timezone.utc).isoformat(timespec='milliseconds')
        files, name = copies.files_of(self.parts), os.path.basename(self.given.journal)
        text, parts = files[name], {part: os.path.basename(path) for part, path in self.parts.items()}
        state = {'time': time, 'journal': {'length': len(text), 'sha256': disk.digest_of(text)},
                 'entries': copies.entries_of(text), 'has_key': bool(self.given.cert),
                 **self.now, 'settings': self.given.known,
                 'parts': {part: it for part, it in parts.items() if it in files}}
        return {**files, f'{name}.window': (json.dumps(state, indent=1) + '\n').encode()}

    def copy_beside(self):
        """A copy that is made beside a window that may run. A journal that is not the desk's is not copied."""
        journal, state = self.given.journal, load(self.given.journal)
        told, kept = journal_changed(state, journal) if state else [], copies.kept_beside(journal)
        if told or kept:
            raise Fault(f'No copy was made: {told[0] if told else kept}')
        files, name = self.files(), os.path.basename(journal)
        lines = files.get(f'{name}.log', b'').decode(errors='replace').splitlines()
        count, known = copies.entries_of(files[name]), log.told_in(lines).entries or 0
        if count < known:
            raise Fault(f'No copy was made: {journal} lacks entry {known}, which was answered (its entries: {count})')
        return self.copies.make(files)

    def keep(self, is_copied=True, is_evening=False):
        """Writes JOURNAL.window, and makes a copy. Gives the path of the copy."""
        with self.turn:
            state, path, failure, whole = load(self.given.journal), f'{self.given.journal}.window', None, None
            if told := journal_changed(state, self.given.journal) if state and is_copied else []:
                raise Fault(told[0])
            if is_copied and copies.kept_beside(self.given.journal):
                raise Fault(f"{self.given.journal} is not the desk's: a .kept file is here")
            files = self.files()
            try:
                disk.put_over(path, files[os.path.basename(path)])
            except OSError as why:      # A full disk here is one more reason for a copy elsewhere.
                failure = why
            if self.copies and is_copied:
                whole = self.copies.make(files, is_evening)
                self.trouble = None
                self.log.write('copied', name=os.path.basename(whole))
                self.warn(whole)
            if failure:
                raise failure
            return whole

    def warn(self, whole):
        """Says once where the disk of the copies keeps no permissions."""
        if os.stat(whole).st_mode & 0o077 and not self.is_warned:
            self.is_warned = True
            print(f'run.py: the disk of {self.copies.folder} keeps no permissions: whoever has it can read the copies. '
                  'Lock it up.', file=sys.stderr)

    def tell(self, words):
        """Says at the terminal, in the log and on the head clerk's page what fails; the same words once."""
        if words != self.trouble:
            print(f'run.py: {words}', file=sys.stderr, flush=True)
            self.log.write('not-copied', why=words)
        self.trouble = words

    def missing(self):
        """Why no copy could be made now, in words, or None."""
        missing = self.copies and self.copies.lacks()
        more = 'Put the stick in, or end the window and name another folder.'
        return f'No copy can be made: {missing}. {more}' if missing else None

    def watch(self):
        """Makes a copy every so many minutes, and looks in between whether its folder is there."""
        left = period = max(1, int(self.given.backup_every * MINUTE / LOOKS))
        was_missing = False
        while not self.is_over.wait(LOOKS):
            missing, left = self.missing(), left - 1
            if missing:
                self.tell(missing)
            elif was_missing or left <= 0:
                self.try_to_keep()
                left = period
            was_missing = bool(missing)

    def try_to_keep(self, is_copied=True):
        """Keeps what can be kept, and tells what failed."""
        try:
            self.keep(is_copied)
        except (Fault, OSError, ValueError) as why:
            self.tell(f'No copy was made: {disk.words_of(why)}')
