"""How tools/pb_clean mends the rows of an election, in the order of docs/formats.md, "Files made clean"."""
import collections, csv, dataclasses, decimal, functools, io, itertools, re, types

from replace_ids import SECTIONS, WHITE_SPACE, trimmed

decimal.getcontext().prec = 100
# What nobody sees: white space, controls, formats, fillers.
EDGES = WHITE_SPACE + ''.join(map(chr, [*range(1, 0x20), *range(0x7F, 0xA0), 0xAD, 0x34F, 0x61C, 0x115F, 0x1160, 0x180E,
    *range(0x200B, 0x2010), *range(0x202A, 0x202F), *range(0x2060, 0x2070), 0x3164, 0xFEFF, 0xFFA0,
    *range(0xFE00, 0xFE10), *range(0xFFF9, 0xFFFC), *range(0xE0000, 0xE0080)]))
QUOTES, SPACES = '\'"`´‘’‚‛“”„‟«»‹›', ' \u00a0\u2009\u202f\'’'
UNSEEN, GROUPED = "characters that can't be seen", 'groups of thousands'
# Brackets around a vote, or each id; `c(..)` is R's.
IN_BRACKETS = re.compile(r'(?:(?:c?\(|[\[{])[^\[\](){}]*[\])}](?:\s*,\s*|\Z))+\Z')
# Groups: by spaces; by `'` and a mark; by one mark: it, further ones, that of decimals. Amounts of three digits.
SPACED = re.compile(rf'[1-9]\d?\d?([{SPACES}])\d{{3}}(\1\d{{3}})*([.,]\d+)?')
MILLIONS = re.compile("([1-9][0-9]{0,2})['’]([0-9]{3})([.,])([0-9]{3})")
GROUPS = re.compile(r'[1-9][0-9]{0,2}([.,])[0-9]{3}((?:\1[0-9]{3})*)(?:(?!\1)([.,])[0-9]+)?')
SMALL = re.compile('[1-9][0-9]{0,2}(?:[.,][0-9]{1,2})?')
# Ids that a spreadsheet shortened; those that repeat if it did so, or made dates of them.
POWER = re.compile(r'[0-9]+([.,][0-9]+)?E\+[0-9]+', re.I)
CHANGED = re.compile('[0-9]{15}0+|[0-9]{5,}0{5}|[0-9]{4}-[0-9]{2}-[0-9]{2} 00:00:00')
SHORTENED = "a spreadsheet shortened the voter's id, or made it a date: get the ids again, as text"
# A time, and how that begins which a log says was done to a vote.
TIME = re.compile('[0-9]:[0-9]').search
DONE = re.compile('insert|updat|delet|remov|cancel|revok|withdr', re.IGNORECASE).match
# How a text begins that is signed with PGP, and how its signature begins and ends.
SIGNED = [f'-----{it}-----' for it in ('begin pgp signed message', 'begin pgp signature', 'end pgp signature')]
# What a count reads of META, and the columns that a section needs.
NEEDED = 'budget', 'vote_type', 'max_length'
COLUMNS = {'projects': [{'project_id', 'cost'}], 'votes': [{'voter_id', 'vote'}, {'voter_id', 'project_id'}]}
# The tables that `--template` makes.
TEMPLATE = {'projects': 'project_id;cost;name\r\nP1;12000;Trees for the market square\r\nP2;8500;Bicycle stands\r\n',
            'votes': 'voter_id;vote\r\nexample1;P1,P2\r\nexample2;P2\r\n'}
WRITER = csv.writer(types.SimpleNamespace(write=str), delimiter=';')

def seen(text):
    """The text without white space, and without what nobody sees, at its ends. Of ASCII this takes less time."""
    return text.strip(' ' if text.isascii() and text.isprintable() else EDGES)

def name_of(field):
    """A heading, a key of META or the name of a column, as it is compared."""
    return seen(field).lower()

def shown(text):
    """A value as words show it."""
    text = ''.join(it if it.isprintable() else f'\\u{{{ord(it):x}}}' for it in text[:61])
    return '`' + (text if len(text) <= 60 else text[:60] + '..') + '`'

@functools.lru_cache(1 << 16)
def ids_of(vote):
    """The ids that a vote names."""
    return tuple(filter(None, map(trimmed, vote.split(','))))

def records(text, separator=';', spaces=False):
    """The rows of a text. Empty lines are no rows."""
    return filter(None, csv.reader(io.StringIO(text, newline=''), delimiter=separator, skipinitialspace=spaces))

def row_text(fields):
    """A row as it is written."""
    return WRITER.writerow(fields)[:-2]

def label_of(names, column):
    """What LOG calls a field: the name of its column if that is there once, else its number."""
    name = names[column] if column < len(names) else ''
    return name if name and names.count(name) == 1 and not name.isdigit() else str(column + 1)

def columns_of(fields, sections=SECTIONS):
    """The names of columns, where these fields are such names of one of the sections, else none."""
    names = [*map(name_of, fields)]
    return names if any(it <= {*names} for section in sections for it in COLUMNS.get(section, ())) else []

@dataclasses.dataclass(slots=True, eq=False)
class Row:
    """A row: its key in LOG, its fields (none if it is left out), its changes, its refusals, its columns' names."""
    key: str
    fields: list
    log: list = ()
    refusals: list = ()
    names: list = ()

    def edit(self, column, what, after):
        """Changes a field, if something was done that makes it another one."""
        if what and after != trimmed(self.fields[column]):
            self.log = [*self.log, (label_of(self.names, column), what, self.fields[column], after)]
            self.fields[column] = after

    def edit_unseen(self, column):
        """Takes what nobody sees from the ends of a field."""
        if column < len(self.fields) and (after := seen(self.fields[column])) != self.fields[column]:
            self.edit(column, UNSEEN, after)

    def leave_out(self, what):
        """Leaves the row out, but no more than a text of one field above what it is not part of."""
        if what.startswith('text above') and any(map(seen, self.fields[1:])):
            return self.refuse(f'a {what} has one field, but this may be a vote, a project or column names: move it to '
                               'where it belongs, or delete it if it is none')
        self.log, self.fields = [*self.log, ('', what, row_text(self.fields), '')], []

    def refuse(self, words):
        self.refusals = [*self.refusals, words]

def added_rows(rows, given):
    """The rows of two tables as those of one file: META and the headings are added."""
    limit = f'max_length;{given.max_length}\n' if given.max_length else ''
    added = {'projects': f'META\nkey;value\nbudget;{given.budget}\nvote_type;approval\n{limit}PROJECTS',
             'votes': 'VOTES' if given.votes else 'VOTES\nvoter_id;vote'}
    for section, text in added.items():
        table = [row for row in rows if row.key.startswith(section)]
        key = table[0].key if table else f'{section}:1'
        yield from [Row(key, it, [('', 'row added', '', row_text(it))]) for it in records(text)] + table

class Section:
    """A section: the rows above its column names, the row of these, they themselves, the rows below."""
    def __init__(self):
        self.above, self.head, self.names, self.below = [], None, [], []

    def column(self, name):
        """The place of a column: the first of this name; beyond each row if there is none."""
        return self.names.index(name) if name in self.names else 1 << 30

    def rows(self, column):
        """The rows that are not left out, and have this column."""
        return [row for row in self.below if column < len(row.fields)]

class Cleaner:
    """Mends the rows of an election, and says by row why some are refused."""
    def __init__(self, rows, reading, given):
        self.rows, self.given = [*added_rows(rows, given)] if given.projects else rows, given
        self.is_cut = any(it[2] == 'separator' for it in reading)
        self.votes, self.vote, self.meta = Section(), 0, {}

    def clean(self):
        parts = self.parts()
        # Where a section or its column names are missing, `pb_app check` says so.
        if tuple(parts) == ('', *SECTIONS) and parts['projects'].names and parts['votes'].names:
            _, meta, self.projects, self.votes = parts.values()
            for row in meta.above:
                row.edit_unseen(0)
                if name_of(row.fields[0]) in NEEDED:
                    row.edit_unseen(1)
                    self.meta[name_of(row.fields[0])] = row
            self.refuse_cut(self.meta.values(), 2)
            for section in self.projects, self.votes:
                for row in section.above:
                    row.leave_out('text above the columns')
                # A spreadsheet fills the row of names up with empty ones.
                self.refuse_cut(section.below, max(at for at, it in enumerate(section.names, 1) if it))
            below = [*self.projects.below, *self.votes.below]
            made = {tuple(row) for table in TEMPLATE.values() for row in records(table)}
            examples = [row for row in below if (*filter(None, row.fields),) in made]
            for row in examples if len(examples) < len(below) else ():
                row.refuse('this row is an example of `--template`: delete it')
            self.clean_amounts()
            self.clean_projects()
            self.clean_votes()

    def parts(self):
        """The sections by their names, and what stands above META. Leaves out empty rows and column names again."""
        parts, last, signed = {'': Section()}, '', ''
        for row in self.rows:
            section, name = parts[last], name_of(row.fields[0])
            before, signed = signed, name if name in (SIGNED if signed else SIGNED[:1]) else signed
            if signed in SIGNED[1:]:
                row.leave_out('signature' if before != SIGNED[2] else 'text behind the signature')
            elif not name and not any(map(seen, row.fields)):
                row.leave_out('empty row')
            # Of two tables the headings are those that were added.
            elif name in SECTIONS and name not in parts and (row.log or not self.given.projects):
                row.edit_unseen(0)
                parts[name], last = Section(), name
            elif name in section.names[:1] and [*map(name_of, row.fields)] == section.names:
                row.leave_out('column names again')
            elif section.names:
                row.names = section.names
                row.edit(0, 'dash of a signed text' * bool(signed), trimmed(row.fields[0]).removeprefix('- '))
                section.below.append(row)
            elif names := columns_of(row.fields, [last]):
                section.head, section.names = row, names
                for column in range(len(names)):
                    row.edit_unseen(column)
            elif self.given.projects and columns_of(row.fields):
                row.refuse('these are the column names of the other table: `--projects` and `--votes` are exchanged')
            else:
                section.above.append(row)
        for row in parts[''].above if 'meta' in parts else ():
            row.leave_out('text above META')
        return parts

    def refuse_cut(self, rows, width):
        """Refuses rows that a separator within a field has cut."""
        for row in [it for it in rows if self.is_cut and any(map(seen, it.fields[width:]))]:
            row.refuse('the row has more fields than there are column names: put quotation marks around the field '
                       'that has the separator in it')

    def clean_amounts(self):
        """Takes groups of thousands out where only one reading is possible, and rounds what is asked for."""
        cost, marks, texts, shows = self.projects.column('cost'), self.given.marks, {}, {'.': {}, ',': {}}
        places = [(row, 1) for key, row in self.meta.items() if key == 'budget' and len(row.fields) > 1]
        places += [(row, cost) for row in self.projects.rows(cost)]
        for row, column in places:
            row.edit_unseen(column)
            if (found := MILLIONS.fullmatch(trimmed(row.fields[column]))) and marks == 'thousands':
                row.edit(column, '--marks', ''.join(found.group(1, 2, 4)))
            elif found and not marks:
                row.refuse(f"`'` may mark millions, and `{found[3]}` thousands: name `--marks thousands` or `decimals`")
            row.edit(column, 'dash for cents', re.sub(r'(?<=\d[.,])[-–—]{1,2}\Z', '00', trimmed(row.fields[column])))
            if found := SPACED.fullmatch(trimmed(row.fields[column])):
                row.edit(column, GROUPED, found[0].replace(found[1], ''))
            texts[row] = trimmed(row.fields[column])
            # The first row that shows a mark to be one of thousands, or of decimals.
            groups, decimals = GROUPS.fullmatch(texts[row]), re.fullmatch('[0-9]+([.,])([0-9]+)', texts[row])
            if mark := groups[3] if groups else decimals and decimals[1]:
                shows[mark].setdefault('decimals', row)
            if groups and (groups[2] or groups[3]):
                shows[groups[1]].setdefault('thousands', row)
            elif marks and decimals and len(decimals[2]) == 3:
                shows[decimals[1]].setdefault(marks, row)
        for mark, (first, *others) in [(it, rows.values()) for it, rows in shows.items() if rows]:
            for row in others:
                row.refuse(f'`{mark}` marks thousands and decimals, here and in record {first.key}, whatever `--marks` '
                           'says: write all amounts alike')
        # Small amounts beside `1.250.000`, if none is like `940.000`.
        groups = {row: it for row, text in texts.items() if (it := GROUPS.fullmatch(text))}
        is_read = groups and all(it[2] and not it[3] for it in groups.values())
        for row in [it for it, text in texts.items() if is_read and SMALL.fullmatch(text)]:
            row.refuse('a spreadsheet may have read thousands as decimals, 940.000 as 940, where the amount of record '
                       f'{next(iter(groups)).key} stayed a text: compare all amounts; write them without these marks')
        for row, column in places:
            self.clean_amount(row, column, shows)

    def clean_amount(self, row, column, shows):
        """Takes out what marks thousands. Rounds what a sum left, and more if the option asks for it."""
        groups = GROUPS.fullmatch(trimmed(row.fields[column]))
        if groups and 'thousands' in shows[groups[1]]:
            what = '--marks' if self.given.marks and not groups[2] and not groups[3] else GROUPED
            row.edit(column, what, groups[0].replace(groups[1], ''))
        elif groups and 'decimals' not in shows[groups[1]]:
            row.refuse(f'the amount {shown(groups[0])} can be {groups[0].replace(groups[1], "")} or {groups[0][:-1]}: '
                       'name `--marks thousands` or `--marks decimals`')
        parts = re.fullmatch('([0-9]{1,20})([.,])([0-9]{3,40})', trimmed(row.fields[column]))
        if parts and parts[3][2:].strip('0'):
            exact = decimal.Decimal(f'{parts[1]}.{parts[3]}')
            is_dust = abs(exact - round(exact, 2)) * 10**8 <= 1
            if way := 'half-up' if is_dust else self.given.round:
                amount = exact.quantize(decimal.Decimal('0.01'), 'ROUND_' + way.replace('-', '_').upper())
                row.edit(column, 'float dust' if is_dust else '--round', str(amount).replace('.', parts[2]))

    def clean_projects(self):
        """Mends the ids of projects, and drops projects of cost 0 where the option asks for it."""
        kept, zero = set(), set()
        column, cost = map(self.projects.column, ('project_id', 'cost'))
        for row in self.projects.rows(column):
            row.edit_unseen(column)
            is_zero = re.fullmatch('0+(?:[.,]0+)?', ''.join(map(trimmed, row.fields[cost:cost + 1])))
            # A row that was mended is kept: a rounded amount is not 0, and the id may be that of another project.
            is_dropped = self.given.drop_zero_cost and is_zero and not row.log
            (zero if is_dropped else kept).add(trimmed(row.fields[column]))
            if is_dropped:
                row.leave_out('--drop-zero-cost')
        self.ids, self.zero = kept | zero, zero - kept
        # A character that an id has is no mark in votes.
        self.letters = {*''.join(self.ids)}
        self.floats = {f'{it}.0': it for it in self.ids if it.isdigit() and '0' not in self.ids}

    def clean_votes(self):
        """Mends each vote, and joins or chooses among the rows of a voter."""
        head, names, way = self.votes.head, self.votes.names, self.given.repeated_voters
        if 'vote' not in names and names.count('project_id') == 1:
            if way in ('first', 'last'):
                head.refuse('the rows have one project each: name `--repeated-voters merge` if each voter has a row '
                            'for each project, `distinct` if each row is a person')
            head.edit(names.index('project_id'), 'heading of rows to join', 'vote')
            names[names.index('project_id')] = 'vote'
        self.voter, self.vote = map(self.votes.column, ('voter_id', 'vote'))
        rows, voters = self.votes.rows(max(self.voter, self.vote)), collections.defaultdict(list)
        # How many ids a vote has at most that needs nothing: beside lists other signs may say something else.
        self.most, faulty = 0, []
        for row in rows:
            row.edit_unseen(self.voter)
            name = trimmed(row.fields[self.voter])
            voters[name if way else ''].append(row)
            if POWER.fullmatch(name):
                row.refuse(SHORTENED)
            if self.ids.issuperset(ids := {*ids_of(row.fields[self.vote])}):
                self.most = max(self.most, len(ids))
            # A line end may part two ballots, and in a row of more fields than names the vote may stand elsewhere.
            elif not re.search('[\r\n]', seen(row.fields[self.vote])) and not any(map(seen, row.fields[len(names):])):
                faulty.append(row)
        for row in faulty:
            row.edit(self.vote, *self.mended_vote(row.fields[self.vote]))
        self.take_out(self.zero, '--drop-zero-cost')
        repeated = {name: same for name, same in voters.items() if name and len(same) > 1}
        # Where other rows of a voter differ, or the id is a time, equal rows may be of different people.
        self.are_copies = all(len({row_text(row.fields) for row in same}) == 1 and not TIME(name)
                              for name, same in repeated.items())
        long = [it for it in repeated if re.fullmatch('[0-9]{8,}', it)]
        are_round = 2 * sum(it.endswith('0000') for it in long) > len(long)
        for name, same in repeated.items():
            if CHANGED.fullmatch(name) or are_round and re.fullmatch('[0-9]{4,}0000', name):
                same[0].refuse(SHORTENED)
            self.clean_repeated(name, same, voters)
        kind = self.meta.get('vote_type', Row('', []))
        if self.given.single_choice and name_of(''.join(kind.fields[1:2])) == 'choose-1':
            kind.edit(1, '--single-choice', 'approval')
            for row in [it for it in self.votes.rows(self.vote) if len({*ids_of(it.fields[self.vote])}) > 1]:
                row.refuse('the vote names several projects, so the file is not choose-1')

    def mended_vote(self, vote):
        """What had to be mended in a vote, and what it is then."""
        text, has_commas = seen(vote), ',' in vote
        kinds = {UNSEEN} if text != trimmed(vote) else set()
        # A bar beside commas may be an `or`; brackets around some votes may strike these out, if no program wrote them.
        is_program = "'" in text or '"' in text or text.startswith('c(') or not text.strip('[](){} ')
        if (is_program or self.most <= has_commas) and self.letters.isdisjoint('[](){}') and IN_BRACKETS.match(text):
            text, kinds = re.sub(r'c?\(|[\[\]){}]', '', text), {'brackets', *kinds}
        if '|' in text and not ('|' in self.letters or has_commas or self.most > 1):
            text, kinds = text.replace('|', ','), {'bars', *kinds}
        pieces = [*map(self.mended_piece, text.split(','))]
        return ', '.join(sorted(kinds.union(*(it for _, it in pieces)))), ','.join(it for it, _ in pieces if it)

    @functools.lru_cache(1 << 16)        # ids repeat
    def mended_piece(self, piece):
        """A piece of a vote as it is mended, and what was; marks alone stay, as they may mean the vote above."""
        text = seen(piece)
        bare = seen(text.strip(QUOTES)) or text if self.letters.isdisjoint(QUOTES) else text
        after = bare if bare in self.ids else self.floats.get(bare, bare)
        kinds = {UNSEEN: text != trimmed(piece), 'quotation marks': bare != text, 'point and zero': after != bare}
        return after, [*filter(kinds.get, kinds)]

    def clean_repeated(self, name, rows, voters):
        """Joins the rows of a voter, keeps one of them, or makes different voters of them."""
        (first, *more), what, way = rows, '--repeated-voters', self.given.repeated_voters
        if name in self.ids and not any(seen(row.fields[self.vote]) for row in rows):
            first.refuse('the rows have no vote, and the voter is called as a project: look at the ballots')
        columns = enumerate(itertools.zip_longest(*(map(seen, row.fields) for row in rows), fillvalue=''))
        for at, said in (it for it in columns if len({*it[1]}) > 1):
            column = label_of(self.votes.names, at)
            if (done := [*filter(DONE, said)]) and len({*map(str.lower, said)}) > 1:
                first.refuse(f'a row says {shown(done[0])}, so the rows may be a log: get the votes as at its end')
            if way == 'last' and all(TIME(it) and it[:4].isdigit() for it in said) and [*said] == sorted(said)[::-1]:
                first.refuse(f'the column {shown(column)} says that the rows go from the latest to the earliest: '
                             '`--repeated-voters first` keeps the latest')
            # Ages are no ranks; numbers up to 10 may be some, if each row has a project at most.
            is_named = re.fullmatch('(rank(ing)?|point|score|preference|weight|priority)s?', column)
            has_ranks = is_named or way == 'distinct' and all(re.fullmatch('0*[0-9]?|10', it) for it in said) and all(
                len(ids_of(row.fields[self.vote])) < 2 for row in rows)
            if at not in (self.voter, self.vote) and (has_ranks or way == 'merge' and not all(map(TIME, said))):
                words = ["this program can't count points or ranks"] * bool(is_named or ''.join(said).isdigit()) + [
                    'if some such rows are no votes, delete them; if they are other people, give them other ids; if it '
                    'says something else, delete the column'] * (not is_named)
                first.refuse(f'rows of a voter differ in the column {shown(column)}, which says '
                             f'{", ".join(map(shown, dict.fromkeys(said)))}: {"; ".join(words)}')
        if way == 'distinct' and self.are_copies:
            first.refuse(f'record {more[0].key} is the same in all fields, so it may be a copy: look at the ballots')
        if way == 'merge':
            first.edit(self.vote, what, ','.join({it: 0 for row in rows for it in ids_of(row.fields[self.vote])}))
        for row in more if way in ('merge', 'first') else rows[:-1] if way == 'last' else ():
            row.leave_out(what)
        others = (it for it in (f'{name}-{number}' for number in itertools.count(2)) if it not in voters)
        for row, other in zip(more if way == 'distinct' else (), others):
            row.edit(self.voter, what, other)

    def refuse_emptied(self):
        """Refuses votes of which none names a project, if rows were joined or left out, or ids taken out."""
        done = {what for row in self.votes.below for _, what, *_ in row.log if what[:4] in ('--re', '--dr')}
        if done and not any(ids_of(row.fields[self.vote]) for row in self.votes.rows(self.vote)):
            self.votes.head.refuse(f'with `{"` and `".join(sorted(done))}` no vote names a project: they may be of '
                                   'another election, or ids stand in another column or row. Look at the ballots')

    def take_out(self, ids, what):
        """Takes ids out of the votes, and answers whether one had some of them."""
        found = ids and [it for it in self.votes.rows(self.vote) if not ids.isdisjoint(ids_of(it.fields[self.vote]))]
        for row in found:
            row.edit(self.vote, what, ','.join(it for it in ids_of(row.fields[self.vote]) if it not in ids))
        return found
