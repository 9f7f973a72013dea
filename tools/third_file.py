"""A small `.pb` file, read as docs/formats.md says it, for tools/third_count.py.

It judges no limits of records and rows. Beyond A to Z `lower()` makes a letter of a to z of one character
alone, a k of the Kelvin sign, and no word here has a k.
"""
import csv, io, re

SPACES_OF_TEXTS = ''.join(map(chr, range(0x2000, 0x200B)))
WHITE_SPACE = f'\t\n\v\f\r \x85\xa0\u1680{SPACES_OF_TEXTS}\u2028\u2029\u202f\u205f\u3000'
FAULTS = {
    2: 'NotText', 4: 'NoSection', 5: 'SectionOrder', 6: 'NoHeader', 7: 'MissingColumn', 8: 'MissingField',
    9: 'MissingKey', 10: 'VoteType', 11: 'BadMoney', 12: 'MoneyTooFine', 13: 'MoneyTooLarge', 14: 'ZeroCost',
    15: 'EmptyId', 16: 'RepeatedProject', 17: 'RepeatedVoter', 18: 'UnknownProject', 22: 'BadLength',
}
# The section before each one, and the columns that it needs.
BEFORE = {'meta': None, 'projects': 'meta', 'votes': 'projects'}
NEEDED = {'meta': (), 'projects': ('project_id', 'cost'), 'votes': ('voter_id', 'vote')}


class Refused(Exception):
    """A fault line and its status."""


class Fault(Exception):
    """The number of a fault of the file."""


def refuse_if(holds, number):
    if holds:
        raise Fault(number)


def hundredths(text):
    refuse_if(not re.fullmatch('[0-9]+([.,][0-9]+)?', text), 11)
    whole, _, decimals = text.replace(',', '.').partition('.')
    refuse_if(decimals[2:].strip('0'), 12)
    refuse_if(len(whole.lstrip('0')) > 14, 13)
    amount = 100 * int(whole) + int(decimals[:2].ljust(2, '0'))
    refuse_if(amount > 10**15, 13)
    return amount


class Election:
    """What a file says: the budget, the cost of each project by its id, and the ids that each voter approves.

    Amounts are in hundredths."""

    def __init__(self, data):
        self.budget, self.costs, self.ballots = 0, {}, {}
        self.section, self.columns, self.meta, number = None, None, {}, 0
        text = data.removeprefix(b'\xef\xbb\xbf').decode('utf-8', 'surrogateescape')
        records = csv.reader(io.StringIO(text, newline=''), delimiter=';')
        try:
            for number, record in enumerate(filter(None, records), 1):
                refuse_if(re.search('[\udc80-\udcff]', ''.join(record)), 2)
                self.take([field.strip(WHITE_SPACE) for field in record])
            number += 1
            refuse_if(self.section and self.columns is None, 6)
            refuse_if(self.section != 'votes', 4)
        except Fault as fault:
            kind = fault.args[0]
            raise Refused(f'fault;read;{kind};{FAULTS[kind]};{number}', 1) from None
        self.supporters = {project: [voter for voter, chosen in self.ballots.items() if project in chosen]
                           for project in self.costs}

    def take(self, fields):
        """Takes a record: nothing, the head of a section, its row of column names, or a row below that."""
        head = fields[0].lower()
        if not any(fields):
            return
        if head in BEFORE:
            refuse_if(self.section and self.columns is None, 6)
            refuse_if(self.section != BEFORE[head], 5)
            if head == 'projects':
                self.judge_meta()
            self.section, self.columns = head, None
        elif self.columns is None:
            refuse_if(not self.section, 4)
            self.columns = [field.lower() for field in fields]
            refuse_if(not set(NEEDED[self.section]) <= set(self.columns), 7)
        elif self.section == 'meta':
            self.meta[head] = ''.join(fields[1:2])
        else:
            places = [self.columns.index(column) for column in NEEDED[self.section]]
            refuse_if(max(places) >= len(fields), 8)
            take_row = self.take_project if self.section == 'projects' else self.take_vote
            take_row(*(fields[place] for place in places))

    def judge_meta(self):
        refuse_if(not {'budget', 'vote_type'} <= self.meta.keys(), 9)
        refuse_if(self.meta['vote_type'].lower() != 'approval', 10)
        self.budget = hundredths(self.meta['budget'])
        refuse_if(not re.fullmatch('([0-9]+([.,]0+)?)?', self.meta.get('max_length', '')), 22)

    def take_project(self, project, cost):
        cost = hundredths(cost)
        refuse_if(cost == 0, 14)
        refuse_if(not project, 15)
        refuse_if(project in self.costs, 16)
        self.costs[project] = cost

    def take_vote(self, voter, vote):
        refuse_if(not voter, 15)
        refuse_if(voter in self.ballots, 17)
        self.ballots[voter] = {piece.strip(WHITE_SPACE) for piece in vote.split(',')} - {''}
        refuse_if(not self.ballots[voter] <= self.costs.keys(), 18)

    def cost_of(self, projects):
        return sum(self.costs[project] for project in projects)

    def fitting(self, taken, left):
        """Who fits into what is left, in the file's order."""
        return [project for project, cost in self.costs.items()
                if self.supporters[project] and project not in taken and cost <= left]
