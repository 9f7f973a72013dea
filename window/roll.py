"""The roll: who may have a ballot, told before one is ticked. It may have columns, also with names."""
import contextlib, csv, fcntl, glob, os, shutil, tempfile

import disk
from election import SPACE, Fault, plain

# How long a name is shown.
LONGEST = 200
# How the names of the window's temporary folders begin.
TEMPORARY = 'clerks-window-'


def own_folder():
    """A temporary folder, which this process has locked as long as it runs, however it ends."""
    for _ in range(20):     # A window that starts at the same moment may delete one before it is locked.
        folder = tempfile.TemporaryDirectory(prefix=TEMPORARY)
        with contextlib.suppress(FileNotFoundError):
            fcntl.flock(os.open(folder.name, os.O_RDONLY | os.O_DIRECTORY), fcntl.LOCK_EX)
            os.stat(folder.name)
            return folder
    raise FileNotFoundError(folder.name)


def clear_folders():
    """Deletes the temporary folders that a window of this account has left when it was killed."""
    for path in glob.glob(glob.escape(os.path.join(tempfile.gettempdir(), TEMPORARY)) + '*'):
        with contextlib.suppress(OSError), contextlib.ExitStack() as left:
            number = os.open(path, os.O_RDONLY | os.O_DIRECTORY | os.O_NOFOLLOW)
            left.callback(os.close, number)
            fcntl.flock(number, fcntl.LOCK_EX | fcntl.LOCK_NB)      # Fails where a window uses it.
            if os.fstat(number).st_uid == os.getuid():
                shutil.rmtree(path, ignore_errors=True)


def names_of(path):
    """The names by the ids of a roll, and whether it has columns; else no id has one. A Fault names none."""
    names, at = {}, 1
    try:
        with open(path, encoding='utf-8-sig', newline='') as text:
            rows = enumerate(csv.reader(text, delimiter=';', strict=True), 1)
            header = [it.strip(SPACE) for it in next((row for _, row in rows if row), [])]
            has_columns = len(header) > 1
            if has_columns and (header.count('voter_id') != 1 or header.count('name') > 1):
                raise ValueError('its header does not have voter_id once, and name once at most. It begins with '
                                 'a row such as voter_id;name')
            place = header.index('voter_id') if has_columns else 0
            named = header.index('name') if 'name' in header else len(header)
            if not has_columns and header not in ([], [''], ['voter_id']):
                names[header[0]] = ''
            for at, row in rows:
                voter = row[place].strip(SPACE) if len(row) > place else ''
                if has_columns and row and (not voter or voter in names):
                    what = 'an id that another row has too' if voter else 'no voter_id'
                    raise ValueError(f'its row {at} has {what}')
                if voter:
                    names[voter] = plain(row[named], LONGEST) if has_columns and len(row) > named else ''
    except (csv.Error, ValueError) as why:
        mark = f'a quotation mark in or after row {at} is not closed, or in a wrong place ({why})'
        words = {UnicodeDecodeError: 'it is not UTF-8 text. Save it with the encoding UTF-8', csv.Error: mark}
        raise Fault(f'{path}, the roll: {words.get(type(why), why)}') from None
    return names, has_columns


class Roll:
    """The roll: each id that is on it, with the name. Pages warn by it, and `serve` decides: by the file
    itself, or, where that has columns, by the ids alone, which this writes to a file of its own."""

    def __init__(self, path):
        (self.names, has_columns), self.path = names_of(path), path
        if has_columns:
            self.folder = own_folder()
            self.path = os.path.join(self.folder.name, 'roll.csv')
            rows = ('"' + it.replace('"', '""') + '"\n' for it in ('voter_id', *self.names))
            disk.put(self.path, ''.join(rows).encode())
