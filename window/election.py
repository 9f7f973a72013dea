"""What the window shows of the city's file: as `pb_app export` tells it, so that no second program reads the format."""
import collections, csv, io, subprocess, sys, unicodedata

csv.field_size_limit(sys.maxsize)
Project = collections.namedtuple('Project', 'id name cost')
# The characters that pb_app trims off the ends of an id; Python would trim more.
SPACE = '\t\n\v\f\r \x85\xa0\u1680\u2028\u2029\u202f\u205f\u3000' + ''.join(map(chr, range(0x2000, 0x200b)))

# How long a voter's id may be, in bytes, and which classes of characters it may not have: controls, those
# that are invisible or turn a line's direction, and line ends. These are limits of the window: `serve` has
# none of them.
LONGEST_ID, UNFIT = 200, ('Cc', 'Cf', 'Zl', 'Zp')


class Fault(Exception):
    """What pb_app said where it refused."""


def told_by(*command):
    """What a command of pb_app writes."""
    done = subprocess.run(command, stdin=subprocess.DEVNULL, capture_output=True)
    if done.returncode:
        raise Fault((done.stdout + done.stderr).decode(errors='replace').strip())
    return done.stdout


def records(text):
    """The records of a text of pb_app."""
    return (row for row in csv.reader(text, delimiter=';') if row)


def ids_of(text):
    """The ids of a ballot as pb_app reads them: separated by commas, trimmed, each once."""
    return list(dict.fromkeys(filter(None, (piece.strip(SPACE) for piece in text.split(',')))))


def plain(text, longest):
    """The beginning of a text, as one line that can be seen."""
    return ''.join(it if it.isprintable() else ' ' for it in text[:longest]).strip()


def is_fit(voter):
    """Whether the window takes this as a voter's id."""
    return (voter == voter.strip(SPACE) != '' and len(voter.encode(errors='replace')) <= LONGEST_ID
            and not any(unicodedata.category(it) in UNFIT for it in voter))


class Election:
    """The projects in the file's order, how many a ballot may have at least and at most, and the file's ballots by voter."""

    def __init__(self, program, file, least):
        self.projects, self.votes, self.least, self.longest, section = [], {}, least, float('inf'), None
        rows = records(io.StringIO(told_by(program, 'export', file, '--plain').decode(), newline=''))
        for row in rows:
            if row in (['META'], ['PROJECTS'], ['VOTES']):
                section, _ = row[0], next(rows)
            elif section == 'PROJECTS':
                # A whole amount of an exported file has no decimals.
                self.projects.append(Project(row[0], row[3], row[1] if '.' in row[1] else f'{row[1]}.00'))
            elif section == 'VOTES':
                self.votes[row[0]] = row[1]
            elif row[0] == 'max_length':
                self.longest = int(row[1])
        self.by_id = {project.id: project for project in self.projects}
        self.places = {project.id: place for place, project in enumerate(self.projects)}
        self.unfit = [voter for voter in self.votes if not is_fit(voter)]
        at_most = [f'{self.longest} at most'] * (self.longest < float('inf'))
        self.limits = ', '.join([f'{least} at least'] * (least > 0) + at_most)

    def chosen(self, ids):
        """The projects of a ballot; an id that no project has stands there alone."""
        return [self.by_id.get(it) or Project(it, 'No project has this id.', '') for it in ids]

    def places_of(self, ids):
        """The places of a ballot's projects, as `serve` answers them; None if no row can name them all."""
        if all(it in self.places and ',' not in it for it in ids):
            return ','.join(map(str, sorted({self.places[it] for it in ids})))

    def warning(self):
        """Names the voters of the file whose ids the window does not take, in words."""
        named = ', '.join(repr(it[:LONGEST_ID]) for it in self.unfit[:10])
        more = f' and {len(self.unfit) - 10} more' * (len(self.unfit) > 10)
        return (f'The window does not take these voters of the file: {named}{more}. An id here has at most '
                f'{LONGEST_ID} bytes and only characters that can be seen. `pb_app serve` takes requests for them.')

    def held(self, voter, entry):
        """The projects of the ballot that an entry put there, or that came with the file."""
        if not entry:
            return self.chosen(ids_of(self.votes[voter]))
        return [self.projects[int(it)] for it in entry.places.split(',') if it]
