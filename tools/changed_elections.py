"""Changed elections: what would have made a project win, searched by tools/recount.py as docs/proposers.md says, and each
changed election as a .pb file. `try_recount` compares both with `pb_app whatif`. It reads made files, whose rows are plain."""
import types

import recount

MOST_VOTERS, LARGEST = 1_000_000, 10 ** 15


def changed_file(file, project, change, value):
    """The .pb file of an election in which the project costs so much, or has so many further voters who approve it alone."""
    lines = file.decode().splitlines()
    projects, votes = lines.index('PROJECTS') + 2, lines.index('VOTES')
    if change == 'voters':
        lines += [f'further {number};{project}' for number in range(value)]
    for at in range(projects, votes):
        if change == 'cost' and lines[at].split(';')[0] == project:
            lines[at] = f'{project};{recount.money_text(value)}'
    return ''.join(line + '\n' for line in lines).encode()


def word_of_report(text, status, project):
    """What a report says of the project: `1` where it is elected or added, else `0`, or `refused` where there is none."""
    if status:
        return 'refused' if text == 'fault;count;4;RaisesSpent\n' else text
    return str(int(any(row.split(';')[:2] in (['elected', project], ['added', project]) for row in text.splitlines())))


class Search:
    """The search for one project of a file, by counts of recount.py alone."""

    def __init__(self, file, project, options):
        self.file, self.project, self.options = file, project, types.SimpleNamespace(**options)

    def word(self, change, value):
        election = recount.read_election(changed_file(self.file, self.project, change, value))
        try:
            count = recount.Count(election, self.options)
            outcome = count.outcome()
        except recount.Refused:
            return 'refused'
        added = count.added(outcome.elected) if self.options.completion in recount.FILLS_UP else []
        return str(int(election.places[self.project] in [*added, *(it.place for it in outcome.elected)]))

    def halved(self, change, low, high):
        """Two rows of which one wins and the other does not, halved until they are one step apart."""
        while high[0] - low[0] > 1:
            middle = low[0] + (high[0] - low[0]) // 2
            row = (middle, self.word(change, middle))
            low, high = (row, high) if (row[1] == '1') == (low[1] == '1') else (low, row)
        return [low, high]

    def between(self, change, low, high):
        if low[0] == high[0]:
            return [low]
        return [low, high] if (low[1] == '1') == (high[1] == '1') else self.halved(change, low, high)

    def doubled(self, most):
        last = first = (0, '0')
        while last[0] < most:
            row = (min(max(2 * last[0], 1), most), None)
            row = (row[0], self.word('voters', row[0]))
            if row[1] == '1':
                return self.halved('voters', last, row)
            last = row
        return [first, last] if most else [first]

    def rows(self):
        """The rows of the search, as (change, value, word); None where the count itself is refused."""
        election = recount.read_election(self.file)
        cost, voters, won = election.projects[election.places[self.project]][2], len(election.ballots), self.word('voters', 0)
        if won == 'refused':
            return None
        other = 1 if won == '0' else min(10 * cost, LARGEST)
        ends = sorted({(cost, won), (other, won if other == cost else self.word('cost', other))})
        costs = self.between('cost', ends[0], ends[-1])
        further = self.doubled(min(voters, MOST_VOTERS - voters)) if won == '0' else [(0, '1')]
        return [('cost', *row) for row in costs] + [('voters', *row) for row in further]


def text_of(rows):
    """What `pb_app whatif` prints of them."""
    if rows is None:
        return 'fault;count;4;RaisesSpent\n'
    shown = {'cost': recount.money_text, 'voters': str}
    return 'change;value;won\n' + ''.join(f'{change};{shown[change](value)};{word}\n' for change, value, word in rows)
