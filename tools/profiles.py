"""The files of conformance/, each with its reports by profile.

For each NAME.pb, NAME.txt has lines of remarks, which begin with `#`, and then for each profile a line
    == ES/MEASURE/COMPLETION/hundredths|fine[/step=AMOUNT][/raises=MOST]/ties=TIES[: status STATUS]
or `== MV/ties=TIES` for most votes first, and the lines of standard output up to the next such line.
"""
import collections, re
from arguments import TOP

FOLDER = TOP / 'conformance'
HEAD = re.compile(r'== ((?:MV|ES/(votes|cost)/(none|add1|utilitarian|add1u)/(hundredths|fine)'
                  r'(?:/step=([0-9]+)[.]([0-9]{2}))?(?:/raises=([0-9]+))?)/ties=([a-z,]*(?:lot:[A-Za-z0-9-]+)?))(?:: status ([1-9]))?')
# What stands as completion for most votes first, which has no other options.
MOST_VOTES = 'most-votes'

# A file, a profile's name, the options to which it gives a value (the step in hundredths), and the text and
# status that are expected.
Case = collections.namedtuple('Case', 'file profile options text status')


class Malformed(Exception):
    """A file of the folder has not the form above."""


def options_of(head):
    """The options to which a profile's line gives a value."""
    _, measure, completion, money, units, decimals, raises, ties, _ = head.groups()
    named = {'ties': ties} if ties != 'file' else {}
    if measure is None:
        return {'completion': MOST_VOTES} | named
    options = {'measure': measure, 'completion': completion}
    options |= {'step': int(units + decimals)} if units else {}
    options |= {'raises': int(raises)} if raises else {}
    return options | ({'money': money} if money == 'fine' else {}) | named


def words_of(options):
    """The words of a command that say these options."""
    said = dict(options)
    if said['completion'] == MOST_VOTES:
        said = {'rule': said.pop('completion')} | said
    return [word for name, value in said.items() for word in (f'--{name}', str(value))]


def cases_of(path):
    """The cases of a file of reports."""
    remarks, *parts = re.split('^(?=== )', path.read_text(encoding='utf-8'), flags=re.M)
    if not parts or any(line[:1] != '#' for line in remarks.splitlines()):
        raise Malformed(f'{path.name} does not begin with remarks and a profile')
    for part in parts:
        first, _, text = part.partition('\n')
        head = HEAD.fullmatch(first)
        if not head or not text.endswith('\n') or '\n\n' in text:
            raise Malformed(f'{path.name} has no profile with a report at: {first}')
        yield Case(path.with_suffix('.pb'), head[1], options_of(head), text, int(head[9] or 0))


def all_cases():
    """The cases of all files, of which each has some."""
    cases = [case for path in sorted(FOLDER.glob('*.txt')) for case in cases_of(path)]
    if not cases or {case.file for case in cases} != set(FOLDER.glob('*.pb')):
        raise Malformed('of a .pb file and its .txt one is missing')
    return cases
