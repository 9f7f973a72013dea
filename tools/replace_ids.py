#!/usr/bin/env python3
"""Writes an election and its journal with ids drawn at random, the same for a voter in both.

usage: replace_ids.py FILE JOURNAL NEW_FILE NEW_JOURNAL [--keep NAME]..
       replace_ids.py FILE JOURNAL NEW_FILE NEW_JOURNAL --publish [OPTIONS OF THE COUNT] [--keep NAME]..

The new files are made for this account alone. It replaces no file, and leaves none where it refuses: the
status is then 1, and one line on standard error says why. Where there is no journal, /dev/null stands for
it, and for the new one.

Columns of VOTES that are headed voter_id, or have the voter's own id in each row, get the new ids. It
refuses a file that has an id of a voter anywhere else: as the value of a key, or in another column. Delete
what says who somebody is. Where a text only happens to be some voter's id, as an age can be, name its key
or column with --keep.

With --publish the new files are such as everybody may read. Of VOTES it keeps voter_id and vote alone, and
says which columns it drops. It writes the rows of VOTES in an order drawn at random: else they tell in
which order people came. The rows of a journal stay in their order, or nobody could audit it. So the journal
still tells in which order, and by which clerk, requests came.

With --publish `pb_app count` has to give the same report of both files before the new ones get their names.
With a journal so has `pb_app audit --require-shut`. Give --publish the options of your count. Without
pb_app nothing is written.
"""
import argparse, csv, errno, os, re, secrets, shutil, signal, subprocess, sys, textwrap

SECTIONS = ('meta', 'projects', 'votes')
WHITE_SPACE = ''.join(map(chr, [*range(0x9, 0xE), 0x20, 0x85, 0xA0, 0x1680, *range(0x2000, 0x200B), 0x2028, 0x2029,
                                0x202F, 0x205F, 0x3000]))
SMALL_LETTERS = {letter: letter + 32 for letter in range(ord('A'), ord('Z') + 1)}
AMOUNTS, AMOUNT = {('meta', 'budget'), ('projects', 'cost')}, re.compile('[0-9]+(?:[.,][0-9]+)?')
# The fields of a journal's row but the voter: the number, the clerk, the request, the places and the answer.
ENTRY = re.compile('[0-9]+;[0-9]+;(?:cast|replace|withdraw|shut);[0-9,]*;[a-z-]+(?: [0-9]+)?')
NO_COLUMN = 'a field without a column'
# The options of a count that have a value.
RULE = ('measure', 'completion', 'step', 'raises', 'rule', 'ties', 'money', 'profile', 'decide', 'beside')
csv.field_size_limit(1 << 30)


class Refused(Exception):
    """No new file was left; the text says why."""


class Ids(dict):
    """The new id of each old one, drawn when it is first asked for."""

    def __init__(self):
        super().__init__()
        self.used = set()

    def __missing__(self, voter):
        token = secrets.token_hex(8)
        while token in self.used:
            token = secrets.token_hex(8)
        self.used.add(token)
        self[voter] = token
        return token


def trimmed(text):
    """The text without the white space at its ends that the program leaves out."""
    return text.strip(WHITE_SPACE)


def small(text):
    """The trimmed text with the 26 ASCII letters small, and no other character changed."""
    return trimmed(text).translate(SMALL_LETTERS)


def rows_of(path):
    """The records of a file."""
    try:
        with open(path, encoding='utf-8-sig', newline='') as file:
            return [row for row in csv.reader(file, delimiter=';') if row]
    except (OSError, UnicodeDecodeError, csv.Error) as why:
        raise Refused(f'{path}: {why}') from None


def columns_of(header):
    """The name of each column of a header, and whether it is the first of this name, which is the one that counts."""
    names, firsts = [small(name) for name in header], {}
    for at, name in enumerate(names):
        firsts.setdefault(name, at)
    return [(name, firsts[name] == at) for at, name in enumerate(names)]


def place_of(columns, name):
    """Where the column of this name stands; None where there is none."""
    return columns.index((name, True)) if (name, True) in columns else None


def placed(rows, path):
    """Each row that is no head and no header: its number, its section, its columns, and itself."""
    due, section, columns = list(SECTIONS), None, None
    for number, row in enumerate(rows, 1):
        if not any(map(trimmed, row)):
            continue
        if small(row[0]) in SECTIONS:
            section, columns = small(row[0]), None
            if due[:1] != [section]:
                raise Refused(f'{path}: record {number} is the head of a section that is out of order')
            del due[0], row[1:]
        elif section is None:
            raise Refused(f'{path}: record {number} is not in a section')
        elif columns is None:
            columns = columns_of(row)
            if section == 'votes' and place_of(columns, 'voter_id') is None:
                raise Refused(f'{path}: the header of VOTES has no column voter_id')
        else:
            yield number, section, columns, row
    if due or columns is None:
        raise Refused(f'{path}: it does not end with a VOTES section')


def replace_in_election(rows, ids, path):
    """Replaces the ids of the VOTES section, in each column that has them."""
    voters, always, alike = [], [], None
    for number, section, columns, row in placed(rows, path):
        if section != 'votes':
            continue
        place = place_of(columns, 'voter_id')
        voter = trimmed(row[place]) if place < len(row) else ''
        if not voter:
            raise Refused(f'{path}: record {number} has no voter_id')
        if alike is None:
            always = [at for at, (name, _) in enumerate(columns) if name == 'voter_id']
            alike = [at for at, (name, _) in enumerate(columns) if name not in ('voter_id', 'vote')]
        alike = [at for at in alike if at >= len(row) or trimmed(row[at]) in ('', voter)]
        voters.append(row)
    for row in voters:
        for at in always + alike:
            if at < len(row) and trimmed(row[at]):
                row[at] = ids[trimmed(row[at])]


def replace_in_journal(rows, ids, path):
    """Replaces the ids of the entries; the version's row is one of two fields."""
    for number, row in enumerate(rows, 1):
        if number == 1 and row == ['journal', '2']:
            continue
        is_entry = len(row) == 6 and ENTRY.fullmatch(';'.join(row[:3] + row[4:])) and row[3] == trimmed(row[3])
        if not is_entry:
            raise Refused(f'{path}: record {number} is no row of a journal')
        if row[3]:
            row[3] = ids[row[3]]


def texts_of(section, columns, row):
    """The texts of a row that can be ids, each with the name of its key or column. Amounts that the count needs can't."""
    if section == 'meta':
        columns = [(None, True), (small(row[0]), True)]
    for at, field in enumerate(row):
        name, counts = columns[at] if at < len(columns) else (NO_COLUMN, False)
        if (section, name) == ('votes', 'vote') and counts:
            yield from ((name, trimmed(piece)) for piece in field.split(','))
        elif name is not None and not ((section, name) in AMOUNTS and counts and AMOUNT.fullmatch(trimmed(field))):
            yield name, trimmed(field)


def refuse_ids(rows, ids, path, kept):
    """Refuses a file in which an old id still stands. A vote names projects: what is the id of one is judged there."""
    found, projects = {}, set()
    for number, section, columns, row in placed(rows, path):
        if section == 'projects' and (place := place_of(columns, 'project_id')) is not None:
            projects.update(map(trimmed, row[place:place + 1]))
        for name, text in texts_of(section, columns, row):
            if text in ids and name not in kept and not (name == 'vote' and text in projects):
                found.setdefault(name, number)
    if found:
        listed = ', '.join(f'{name} (record {number})' for name, number in found.items())
        raise Refused(f'{path}: ids of voters also stand in: {listed}. Delete each that says who somebody is, and name each '
                      'other one with --keep, such as --keep age')


def behind_votes(rows):
    """Where the rows behind the head of VOTES begin, of an election whose sections are in order."""
    return 1 + next(at for at, row in enumerate(rows) if small(row[0]) == 'votes')


def drop_columns(rows):
    """Leaves of VOTES the ids and the votes alone. Answers the names of what was dropped."""
    votes = rows[behind_votes(rows):]
    header = [*next(row for row in votes if any(map(trimmed, row)))]
    columns = columns_of(header)
    kept = [at for at, column in enumerate(columns) if column in (('voter_id', True), ('vote', True))]
    dropped = [trimmed(name) for at, name in enumerate(header) if at not in kept]
    if any(any(map(trimmed, row[len(header):])) for row in votes):
        dropped.append(NO_COLUMN)
    for row in votes:
        row[:] = [row[at] for at in kept if at < len(row)]
    return dropped


def shuffle_votes(rows):
    """Writes the rows of VOTES in an order drawn at random: else they tell in which order people came."""
    begin = behind_votes(rows)
    header, *voters = [row for row in rows[begin:] if any(map(trimmed, row))]
    secrets.SystemRandom().shuffle(voters)
    rows[begin:] = [header, *voters]


def program_of(named=None, more=': without it nothing is written', why=''):
    """The path of pb_app: the named one, or beside this tool, or on the PATH."""
    beside = os.path.dirname(os.path.abspath(sys.argv[0]))
    found = shutil.which(named) if named else shutil.which('pb_app', path=beside) or shutil.which('pb_app')
    if not found:
        raise Refused(f'there is no program {named}' if named else
                      f'pb_app{why} is neither on the PATH nor beside this tool{more}')
    return found


def reports_of(given, program, file, journal=None):
    """What pb_app reports of a file, and of a file with its journal where there is one."""
    rule = [word for name in RULE if getattr(given, name) for word in (f'--{name}', getattr(given, name))]
    rule += ['--plain'] if given.plain else []
    calls = [['count', os.path.abspath(file), *rule]]
    if given.journal != os.devnull:
        other = ['--other-file'] if given.other_file else []
        calls.append(['audit', *map(os.path.abspath, (file, journal)), '--require-shut', *other, *rule])
    for words in calls:
        done = subprocess.run([program, *words], stdin=subprocess.DEVNULL, capture_output=True,
                              encoding='utf-8', errors='replace')
        if done.returncode:
            why = (done.stderr or done.stdout).partition('\n')[0]
            raise Refused(f'nothing is written, since pb_app {words[0]} refuses {file}: {why}')
        yield done.stdout


def see_winners(given, program, new):
    """The rows of the winners, which have to be the same of the old files and of the new ones."""
    reports = [[*reports_of(given, program, *files)] for files in ((given.file, given.journal), new)]
    if reports[0] != reports[1]:
        raise Refused('nothing is written, since pb_app gives another report of the new files than of '
                      f'{given.file}')
    return re.findall('^(?:elected|added);.*$', reports[0][-1], re.M)


def say(text):
    """A line on standard error, in which each character can be seen."""
    seen = ''.join(it if it.isprintable() else f'\\u{{{ord(it):x}}}' for it in text)
    print(f'replace_ids: {seen}', file=sys.stderr)


def say_published(given, dropped, winners):
    """What was done for everybody's eyes, and what the files still tell."""
    say(f'dropped from VOTES: {", ".join(dropped) or "nothing"}')
    say('the rows of VOTES are in an order drawn at random')
    if given.journal != os.devnull:
        say('the rows of the journal are in their order: it tells in which order, and by which clerk, '
            'requests came')
    say(f'pb_app gives the same report of both; winners: {len(winners)}')


def text_of(rows):
    """The rows as they are written: a field with a mark or a line end is in quotes."""
    def written(field):
        return '"' + field.replace('"', '""') + '"' if re.search('[;"\r\n]', field) else field
    return ''.join(';'.join(map(written, row)) + '\n' for row in rows).encode()


def write_beside(path, text):
    """Writes a new file beside this path, and answers its name, once it is on the disk."""
    beside = f'{path}.{secrets.token_hex(4)}.new'
    descriptor = os.open(beside, os.O_WRONLY | os.O_CREAT | os.O_EXCL, 0o600)
    try:
        with open(descriptor, 'wb') as file:
            file.write(text)
            file.flush()
            os.fsync(file.fileno())
    except BaseException:
        os.unlink(beside)
        raise
    return beside


def sync_folder(path):
    """Puts the names of the folder of this path on the disk."""
    descriptor = os.open(os.path.dirname(path) or '.', os.O_RDONLY)
    try:
        os.fsync(descriptor)
    finally:
        os.close(descriptor)


def give_name(beside, path):
    """Gives a file that was written beside this path its name, which no file may have."""
    try:
        os.link(beside, path)
    except FileExistsError:
        raise
    except OSError:
        # Some file systems have no links.
        if os.path.lexists(path):
            raise FileExistsError(errno.EEXIST, os.strerror(errno.EEXIST)) from None
        os.rename(beside, path)


def write_all(texts, see=None):
    """Makes these new files, all or none of them: each gets its name when all are whole and on the disk.
    Before that `see`, if there is one, looks at them under the names that they have until then, and may refuse
    them. Its answer is the answer.
    """
    beside, made, path = {}, [], None
    try:
        for path, text in texts:
            if os.path.lexists(path) or path in beside:
                raise FileExistsError(errno.EEXIST, os.strerror(errno.EEXIST))
            beside[path] = write_beside(path, text)
        seen = see and see([*beside.values()])
        for path, name in beside.items():
            give_name(name, path)
            made.append(path)
            sync_folder(path)
        return seen
    except BaseException as why:
        delete(made)
        if isinstance(why, OSError):
            raise Refused(f'{path}: {why.strerror}') from None
        raise
    finally:
        delete(beside.values())


def delete(paths):
    for path in paths:
        if os.path.lexists(path):
            os.unlink(path)


def replace(given):
    program = program_of(given.program, ': name it with --program',
                         ', which has to count both files,') if given.publish else None
    ids, election, entries = Ids(), rows_of(given.file), rows_of(given.journal)
    replace_in_election(election, ids, given.file)
    replace_in_journal(entries, ids, given.journal)
    dropped = drop_columns(election) if given.publish else []
    refuse_ids(election, ids, given.file, set(map(small, given.keep)))
    if given.publish:
        shuffle_votes(election)
    texts = [(given.new_file, text_of(election))]
    if (given.journal, given.new_journal) != (os.devnull, os.devnull):
        texts.append((given.new_journal, text_of(entries)))
    winners = write_all(texts, (lambda new: see_winners(given, program, new)) if given.publish else None)
    if given.publish:
        say_published(given, dropped, winners)


def given_arguments():
    parts = __doc__.split('\n\n')
    name, wrapped = os.path.basename(sys.argv[0]), textwrap.TextWrapper(79, break_on_hyphens=False)
    parser = argparse.ArgumentParser(prog=name, description=wrapped.fill(parts[0]),
                                     epilog='\n\n'.join(map(wrapped.fill, parts[2:])),
                                     formatter_class=argparse.RawDescriptionHelpFormatter)
    parser.error = lambda said: parser.exit(2, f'{name}: {said}; `{name} --help` says what it takes\n')
    parser.add_argument('file', metavar='FILE', help="the election's .pb file")
    parser.add_argument('journal', metavar='JOURNAL', help="the desk's journal; /dev/null, where there is none")
    parser.add_argument('new_file', metavar='NEW_FILE', help='the file that is made, with new ids')
    parser.add_argument('new_journal', metavar='NEW_JOURNAL',
                        help='the journal that is made, with the same new ids; /dev/null, where there is '
                             'none')
    parser.add_argument('--keep', metavar='NAME', action='append', default=[],
                        help="a key or a column whose texts are kept, also those that happen to be some voter's id")
    parser.add_argument('--publish', action='store_true',
                        help='writes files for everybody: only ids and votes in VOTES, in a random order')
    take = parser.add_argument_group('with --publish').add_argument
    take('--program', metavar='PROGRAM',
         help='the program that counts; pb_app beside this tool or on the PATH, if none is named')
    for rule in RULE:
        take(f'--{rule}', metavar=rule.upper(), help='as with `pb_app count`')
    take('--plain', action='store_true', help='as with `pb_app count`')
    take('--other-file', action='store_true', help='as with `pb_app audit`')
    given = parser.parse_args()
    of_count = [given.program, given.plain, given.other_file, *(getattr(given, rule) for rule in RULE)]
    if not given.publish and any(of_count):
        parser.error('options of the count go with --publish')
    return given


def main():
    given = given_arguments()
    # Who ends it while it counts finds no half-made file either.
    signal.signal(signal.SIGTERM, lambda *_: sys.exit(143))
    try:
        replace(given)
    except Refused as why:
        say(str(why))
        return 1
    return 0


if __name__ == '__main__':
    sys.exit(main())
