"""Whole copies of an office, and the way back. A copy is a folder with the files and their digests."""
import contextlib, datetime, json, os, re, shutil

import clerks, disk, election, log
from election import Fault

# How many copies are kept besides each evening's; the file of the digests; where a copy is checked.
KEPT, SUMS, CHECKED = 20, 'SHA256SUMS', '.restoring'
NOTHING = 'Nothing was put back; take another copy'


def text_of(data):
    """The text of a journal: up to its first empty line, behind which a `serve` that runs writes ahead."""
    end = data.find(b'\n\n') + 1
    while data[:end].count(b'"') % 2:       # This one is in an id.
        end = data.find(b'\n\n', end) + 1
    return data[:end] if end else data


def entries_of(text):
    """How many entries the text of a journal has: the number in its last row, whose id may have line ends."""
    begin = text.rfind(b'\n', 0, -1)
    while begin > 0 and text[begin:].count(b'"') % 2:
        begin = text.rfind(b'\n', 0, begin)
    number = text[begin + 1:].split(b';')[0]
    return int(number) if number.isdigit() else 0


def count_in(path):
    """How many entries the journal in this file has; None where it cannot be read."""
    with contextlib.suppress(OSError), open(path, 'rb') as file:
        return entries_of(text_of(file.read()))


def kept_beside(journal):
    """What `serve` has kept of a journal that was moved or changed: where to find the text with the most entries,
    and what to do, in words; None where nothing is kept."""
    folder, name = os.path.split(os.path.abspath(journal))
    form = re.escape(name) + r'\.kept\d*'
    counts = [(count_in(os.path.join(folder, it)) or 0, it) for it in os.listdir(folder) if re.fullmatch(form, it)]
    if counts:
        count, kept = max(counts)
        return (f'{kept} is here (its entries: {count}): {name} was moved, replaced or changed while the desk ran. Copy '
                f'{name}, if it is there, and every .kept file to another folder. Give the one with the most entries '
                f'the name {name}, and leave no .kept file here. Then start the window again')


def parts_of(given):
    """The files of an office, by what they are. The certificate's key stays out of every copy."""
    journal = given.journal
    parts = {'log': f'{journal}.log', 'journal': journal, 'belongs': f'{journal}.file', 'words': f'{journal}.words',
             'file': given.file, 'sum': f'{given.file}.sha256', 'clerks': given.clerks, 'roll': given.roll,
             'settings': given.settings, 'language': given.language, 'certificate': given.cert}
    return {part: path for part, path in parts.items() if path}


def files_of(parts):
    """What each file holds, by its name. The log is read first: so the journal has all its answers."""
    files = {}
    for part, path in parts.items():
        name = os.path.basename(path)
        if name in files or name in (SUMS, f"{os.path.basename(parts['journal'])}.window"):
            raise ValueError(f'two files of the office would have the name {name} in a copy')
        try:
            with open(path, 'rb') as file:
                data = file.read()
        except FileNotFoundError:
            if part not in ('log', 'belongs', 'words', 'sum'):
                raise
            continue
        if b'PRIVATE KEY' in data and part == 'certificate':    # Some have both in one file.
            continue
        files[name] = {'journal': text_of, 'log': lambda it: it[:it.rfind(b'\n') + 1]}.get(part, bytes)(data)
    return files


def audited(program, folder, parts):
    """Audits a copy's journal, without the options of the count: a count may be long, or refused."""
    file, journal = (os.path.join(folder, os.path.basename(parts[it])) for it in ('file', 'journal'))
    election.told_by(program, 'audit', '--plain', '--quiet', file, journal)


class Copies:
    """The copies of an office in the folder that --backup names."""

    def __init__(self, folder, program, parts):
        self.folder, self.device = os.path.abspath(folder), os.stat(folder).st_dev
        self.program, self.parts = program, parts
        self.stem = os.path.basename(parts['journal'])
        self.form = re.escape(self.stem) + r'\.\d{4}-\d\d-\d\d_\d\d\.\d\d\.\d\d\.\d{3}Z(-evening)?'

    def lacks(self):
        """Why no copy can be made in the folder now, or None."""
        try:
            if os.stat(self.folder).st_dev != self.device:
                return f'{self.folder} is on another disk than this morning'
            return None if os.access(self.folder, os.W_OK | os.X_OK) else f'{self.folder} cannot be written'
        except OSError:
            return f'{self.folder} is not there'

    def names(self, begin=''):
        """The names of the copies, the oldest first; with '.', of what is left of unfinished ones."""
        return sorted(it for it in os.listdir(self.folder) if re.fullmatch(re.escape(begin) + self.form, it))

    def newest(self):
        """Where the newest copy is, or None."""
        with contextlib.suppress(OSError, IndexError):
            return os.path.join(self.folder, self.names()[-1])

    def with_digest(self, digest):
        """A file in a copy that has this digest, or None."""
        for name in reversed(self.names()):
            folder = os.path.join(self.folder, name)
            with contextlib.suppress(OSError), open(os.path.join(folder, SUMS), encoding='utf-8') as sums:
                for found in re.finditer(rf'^{re.escape(digest)}  ([^/\n]+)$', sums.read(), re.M):
                    if disk.digest_in(path := os.path.join(folder, found[1])) == digest:
                        return path

    def make(self, files, is_evening=False):
        """Makes a copy of these files: gives its path. It is written beside and renamed: whole or absent."""
        now = datetime.datetime.now(datetime.timezone.utc)
        time = f'{now:%Y-%m-%d_%H.%M.%S}.{now.microsecond // 1000:03}Z'
        name = f'{self.stem}.{time}{"-evening" * is_evening}'
        beside, whole = os.path.join(self.folder, f'.{name}'), os.path.join(self.folder, name)
        if lacks := self.lacks():
            raise OSError(lacks)
        with disk.alone(self.folder):
            self.clear()
            os.mkdir(beside, 0o700)
            try:
                with disk.alone(beside):
                    for it, data in files.items():
                        disk.put(os.path.join(beside, it), data)
                    audited(self.program, beside, self.parts)
                    sums = ''.join(f'{disk.digest_of(data)}  {it}\n' for it, data in files.items())
                    disk.put(os.path.join(beside, SUMS), sums.encode())
                os.rename(beside, whole)
            except BaseException:
                shutil.rmtree(beside, ignore_errors=True)
                raise
        self.thin()
        return whole

    def clear(self):
        """Deletes what a machine that died has left of a copy."""
        for name in self.names('.'):
            shutil.rmtree(os.path.join(self.folder, name), ignore_errors=True)

    def thin(self):
        """Keeps the newest copies and each evening's. One that is being deleted is no copy any more."""
        with contextlib.suppress(OSError), disk.alone(self.folder):
            for name in self.names()[:-KEPT]:
                if not name.endswith('-evening'):
                    os.rename(os.path.join(self.folder, name), os.path.join(self.folder, f'.{name}'))
            self.clear()


def restore(copy, program):
    """Puts an office back from a copy, into this folder, which is empty; gives in words what it found. Nothing is put
    back unless each digest is right and the files belong together."""
    here = os.getcwd()
    if set(os.listdir(here)) - {CHECKED}:
        raise Fault(f'{here} is not empty. Make a new folder, go there, and type this again')
    shutil.rmtree(CHECKED, ignore_errors=True)
    files = as_copied(copy)
    count = len(files)
    try:
        os.mkdir(CHECKED, 0o700)
        for name, data in files.items():
            disk.put(os.path.join(CHECKED, name), data)
        try:
            parts, found = together(files, program)
        except (Fault, OSError, ValueError, KeyError, TypeError) as why:
            words = f'its files do not belong together: {disk.words_of(why)}'
            raise Fault(f'{copy}: {words}. {NOTHING}') from None
        if (name := f"{parts['file']}.sha256") not in files:    # Each morning FILE is compared with it.
            files[name] = f"{disk.digest_of(files[parts['file']])}  {parts['file']}\n".encode()
            disk.put(os.path.join(CHECKED, name), files[name])
        # Without FILE nothing starts: it comes last.
        with disk.alone(here):
            for name in sorted(files, key=lambda it: (it == parts['file'], it != parts['journal'])):
                os.rename(os.path.join(CHECKED, name), name)
    finally:
        shutil.rmtree(CHECKED, ignore_errors=True)
    return [f'{copy} is whole: {count} files, each with its digest.', *found,
            f"Put back into {here}: {', '.join(sorted(files))}."]


def as_copied(copy):
    """The files of a copy, each with the digest that it had."""
    try:
        with open(os.path.join(copy, SUMS), encoding='utf-8') as file:
            lines = [re.fullmatch(r'([0-9a-f]{64})  ([^/\0\n]+)', line.rstrip('\n')) for line in file]
        there, files, wrong = set(os.listdir(copy)) - {SUMS}, {}, []
        if not lines or None in lines:
            raise ValueError(f'{SUMS} is damaged')
        for digest, name in (line.groups() for line in lines):
            with open(os.path.join(copy, name), 'rb') as file:
                files[name] = file.read()
            if disk.digest_of(files[name]) != digest:
                wrong.append(f'{name} is not what was copied: its digest differs')
        wrong += [f'{name} is not in {SUMS}' for name in sorted(there - set(files))]
        if wrong:
            raise ValueError('; '.join(wrong))
        return files
    except (OSError, ValueError) as why:
        raise Fault(f'{copy} is not a whole copy: {disk.words_of(why)}. {NOTHING}') from None


def together(files, program):
    """What a copy's files are, by their names, and what was found in them, in words."""
    state = next((json.loads(files[it]) for it in files if it.endswith('.window')), None)
    if state is None:
        raise ValueError('the file that ends in .window is missing')
    parts, kept = state['parts'], state['journal']
    audited(program, CHECKED, parts)
    text = files[parts['journal']]
    count = entries_of(text)
    is_same = disk.digest_of(text) == kept['sha256'] and disk.digest_of(files[parts['file']]) == state['file']
    if not is_same or len(text) != kept['length']:
        raise ValueError('they are not of one moment')
    found = [f"{parts['file']}: sha256 {state['file']}",
             f"{parts['journal']}: {count} entries, sha256 {kept['sha256']}"]
    if 'clerks' in parts:
        known = clerks.load(os.path.join(CHECKED, parts['clerks']))
        found.append(f"{parts['clerks']}: {len(known)} clerks; the head clerk is {known[0]['name']}")
    if 'log' in parts and log.Log(os.path.join(CHECKED, parts['log'])).entries > count:
        raise ValueError('the log has an answer that the journal lacks')
    found.append(f"Copied at {state['time'][:19].replace('T', ', ')} UTC. What was answered later is not here: "
                 'it has to be taken again.')
    if state['has_key']:
        found.append("The certificate's key is in no copy: bring it yourself.")
    return parts, found
