"""The large files that cases name, made on the fly: each is a function that gives its bytes. What the program has to
answer to them was worked by hand, as at each function."""
import hashlib, pathlib

DATA = pathlib.Path(__file__).resolve().parent.parent / 'crates/pb_app/cases/data'


def three_voters(more_of_meta=(), more_fields=0, tail=''):
    """The three voters' file with these rows more in META, this many fields more in each row, and this at its end."""
    meta = ['META', 'key;value', 'budget;100', 'vote_type;approval', *more_of_meta]
    rows = meta + ['PROJECTS', 'project_id;cost', 'a;30', 'b;60', 'VOTES', 'voter_id;vote', 'v1;a', 'v2;a,b', 'v3;b']
    return ''.join(row + ';' * more_fields + '\n' for row in rows).encode() + tail.encode()


def city(voters):
    """As many voters, and 10,000 projects; the budget is 1.00 for each voter.

    a and e are approved by all, b and d by every other voter from the first, c by the others, f by every tenth from the
    first; each of the other 9,994, which cost more than the budget, by those few whose turn it is. Of each
    voter's 1.00, a takes 0.20 (it collects 0.99 more than it costs), d 0.25, b and c 0.30. Then the others have 0.50
    left, and those of b and d 0.25, which is less than the 0.30 that e needs of each: they pay 0.25, the others 0.35. No
    f: its supporters have nothing left, and f needs 0.75 of each. With a share of 1.10 to 1.70 e is bought at 0.30, and
    f's supporters have 0.05 to 0.65 left; at 1.80 they have 0.75, and f is bought too. What is left of the budget is 0.99.
    """
    costs = {'a': 20 * voters - 99, 'b': 15 * voters, 'c': 15 * voters, 'd': 12 * voters + voters // 2,
             'e': 30 * voters, 'f': 7 * voters + voters // 2}
    rows = ['META', 'key;value', f'budget;{voters}', 'vote_type;approval', 'PROJECTS', 'project_id;cost']
    rows += [f'{name};{cost // 100}.{cost % 100:02}' for name, cost in costs.items()]
    rows += [f'{place};{voters}.01' for place in range(6, 10_000)]
    rows += ['VOTES', 'voter_id;vote']
    for voter in range(voters):
        liked = 'a,c,e' if voter % 2 else 'a,b,d,e,f' if voter % 10 == 0 else 'a,b,d,e'
        rows.append(f'{voter};{liked},{6 + voter % 9_994}')
    return ''.join(row + '\n' for row in rows).encode()


def two_clerks(is_script):
    """Two clerks in turn cast for a hundred voters each: the script, or the rows of a journal, clerk after clerk."""
    if is_script:
        return ''.join(f'{clerk};cast;{clerk}-{row};0\n' for row in range(1, 101) for clerk in range(2)).encode()
    rows = [f'{clerk};cast;{clerk}-{row};0;done\n' for clerk in range(2) for row in range(1, 101)]
    return ''.join(['journal;2\n'] + rows).encode()


def roll(ids):
    """A voters' roll without a header: so many ids, from 1."""
    return ''.join(f'{voter}\n' for voter in range(1, ids + 1)).encode()


def many_faults():
    """The three voters, 1,001 further votes of v1, and 102 voters who vote for nothing: of the faults 1,000 are listed, of
    the empty ballots 100."""
    rows = ['v1;a'] * 1_001 + [f'w{row};' for row in range(102)]
    return three_voters(tail=''.join(row + '\n' for row in rows))


def listed_faults():
    """What a check of them lists: the three voters' file has 13 records."""
    rows = [f'fault;read;17;RepeatedVoter;{at}' for at in range(14, 1_014)]
    rows += [f'warning;EmptyBallot;{at}' for at in range(1_015, 1_115)]
    rows += ['warning;MoreOf;EmptyBallot;2', 'warning;NoteRows;1015']
    return ''.join(row + '\n' for row in rows).encode()


def dearest():
    """20,000 voters who approve one project, which costs 10^15 hundredths, the largest amount. Each can spend 5 * 10^10, and
    they pay all of it. What they approve costs 2 * 10^19 hundredths together, which 64 bits do not hold."""
    rows = ['META', 'key;value', 'budget;10000000000000', 'vote_type;approval', 'PROJECTS', 'project_id;cost', 'a;10000000000000',
            'VOTES', 'voter_id;vote', *(f'{voter};a' for voter in range(20_000))]
    return ''.join(row + '\n' for row in rows).encode()


def far_oddities(record=60_000, records=70_000):
    """A file with so many records, of which this one is a vote with a field more than its columns; 5 behind it a vote names no
    project. All else is in order, also how many projects and votes META says that there are, and how many votes each project has."""
    rows = ['META', 'key;value', 'budget;100', 'vote_type;approval', 'num_projects;2', f'num_votes;{records - 12}',
            'PROJECTS', 'project_id;cost;votes', f'a;30;{records - 13}', f'b;60;{records - 13}', 'VOTES', 'voter_id;vote']
    rows += [f'{at};a,b' for at in range(13, records + 1)]
    rows[record - 1] += ';a'
    rows[record + 4] = f'{record + 5};'
    return ''.join(row + '\n' for row in rows).encode()


def many_projects(is_exported=False, keeps_voters=False):
    """A file with 300 projects, each with a category, a street and a supporter of its own, who has an age; or what an export of it
    has to be, by the method alone.

    Of the budget each of the 300 voters has 1.00. That pays for the projects at even places, which cost 1, and for none at odd
    places, which cost 2, the last one 2.50. META has 150 further keys."""
    costs = [1 + at % 2 for at in range(299)] + ['2.50']
    further = [f'key{at};value {at}' for at in range(150)]
    rows = ['META', 'key;value', *([] if is_exported else further), 'budget;300', 'vote_type;approval']
    if is_exported:
        rows += ['num_projects;300', 'num_votes;300', 'rule;equalshares', 'comment;equal shares by price, no raises', *further,
                 'PROJECTS', 'project_id;cost;votes;name;selected;category;street']
        rows += [f'p{at};{cost};1;project {at};{1 - at % 2};c{at};s{at}' for at, cost in enumerate(costs)]
    else:
        rows += ['PROJECTS', 'category;project_id;name;cost;street']
        rows += [f'c{at};p{at};project {at};{cost};s{at}' for at, cost in enumerate(costs)]
    has_age = keeps_voters or not is_exported
    rows += ['VOTES', 'voter_id;vote' + ';age' * has_age]
    rows += [f'v{at};p{at}' + f';{18 + at}' * has_age for at in range(300)]
    return ''.join(row + '\n' for row in rows).encode()


def many_claims():
    """The exported file, in which record 411 says that project 250 was not elected, and record 421 that project 260 has two votes:
    158 records are META's, two the head of PROJECTS."""
    return many_projects(True).replace(b'p250;1;1;project 250;1;', b'p250;1;1;project 250;0;').replace(
        b'p260;1;1;', b'p260;1;2;')


def heavy_city():
    """The three voters' file with 6 MB of META above its ballots."""
    return three_voters(['k;' + 100_000 * 'v'] * 60)


def digested(file, journal, report):
    """A report below the digests of a .pb file and its journal, and the standard rule."""
    named = ((b'file', file), (b'journal', journal))
    digests = [b'digest;%s;sha256;%s\n' % (name, hashlib.sha256(text).hexdigest().encode()) for name, text in named]
    return b''.join(digests) + b'rule;ES/votes/add1/hundredths/step=1.00/ties=file\n' + report


def report_of_heavy():
    """An audit of all-known.journal on that file, with the digests. The ballots count as in cases/audit.txt."""
    report = (b'entries;4;shut\nbudget;100.00\nvoters;3\nshare;38.33\nraises;5\nelected;a;30.00;15.00\n'
              b'elected;b;60.00;36.67\nspent;90.00\nsurplus;0.00\n')
    return digested(heavy_city(), (DATA / 'all-known.journal').read_bytes(), report)


def report_of_long():
    """An audit of the long journal, with the digests."""
    report = (b'entries;100001;shut\nbudget;100000.00\nvoters;100000\nshare;2.00\nraises;1\nelected;a;30000.00;0.30\n'
              b'elected;b;60000.00;1.20\nspent;90000.00\nsurplus;0.00\n')
    return digested(long_city(), long_journal(), report)


def long_city():
    """A file without a vote, for the long journal."""
    return three_voters().replace(b'budget;100', b'budget;100000').replace(b'a;30', b'a;30000').replace(
        b'b;60', b'b;60000').partition(b'v1;')[0]


def long_journal():
    """A journal of 6 MB, of a desk that is shut: 100,000 voters cast for a, every other one, from the first, for b too.

    Of the budget each has 1.00. a takes 0.30 of it; the 50,000 who want b have 0.70 left, of the 1.20 that it needs of each.
    With a share of 2.00 they pay it too. Then all projects are elected."""
    rows = [f'{at};0;cast;{long_id(at)};{"0,1" if at % 2 else "0"};done\n' for at in range(1, 100_001)]
    return ('journal;2\n' + ''.join(rows) + '100001;0;shut;;;done\n').encode()


def long_id(at):
    return f'voter {at:06} of Mill Lane, Lipowo, 1st door'


def long_ballots():
    """The ballots that this journal leaves."""
    rows = [f'{long_id(at)};{at};{"a,b" if at % 2 else "a"}\n' for at in range(1, 100_001)]
    return ('voter_id;entry;project_ids\n' + ''.join(rows)).encode()


def long_report(size):
    """A file whose report has so many bytes: its one project has a long id, and wins."""
    file = b'META\nkey;value\nbudget;10\nvote_type;approval\nPROJECTS\nproject_id;cost\n%s;10\nVOTES\nvoter_id;vote\nv1;%s\n'
    name = b'p' * (size - len(report_of(b'')))
    return file % (name, name)


def report_of(name):
    """Its report: the voter has 10.00, and pays it."""
    return (b'budget;10.00\nvoters;1\nshare;10.00\nraises;0\nelected;%s;10.00;10.00\nspent;10.00\nsurplus;0.00\n' % name)


def text_of_report(size):
    """The report of so many bytes."""
    return report_of(b'p' * (size - len(report_of(b''))))


# Texts as long as a page of memory, as 16 of them and as 256, and a byte less and more.
SIZES = [pages * 4_096 + more for pages in (1, 16, 256) for more in (-1, 0, 1)]

MADE = {
    'large.pb': lambda: city(100_000),
    'largest.pb': lambda: city(1_000_000),
    # 13 records of the three voters, and as many more as make 2,000,000 and one more
    'records.pb': lambda: three_voters(['k;v'] * 1_999_987),
    'records-and-one.pb': lambda: three_voters(['k;v'] * 1_999_988),
    # a project and a voter more than there may be: the 10,001st project is record 10,007, the 1,000,001st voter record 1,000,011
    'projects-and-one.pb': lambda: three_voters().replace(
        b'VOTES', ''.join(f'{place};1\n' for place in range(3, 10_002)).encode() + b'VOTES'),
    'voters-and-one.pb': lambda: three_voters(tail=''.join(f'{voter};\n' for voter in range(4, 1_000_002))),
    # as many lines as a sheet of a spreadsheet has rows, without the number of votes and with it
    'full-sheet.pb': lambda: three_voters(['k;v'] * 65_523),
    'numbered-sheet.pb': lambda: three_voters(['k;v'] * 65_522 + ['num_votes;3']),
    # rows of 2,001 fields and more, one of 100,000
    'wide.pb': lambda: three_voters(['k' + ';' * 99_999], 1_999),
    # as many ids as a roll may have, below a header, and one more
    'full.roll': lambda: b'voter_id\n' + roll(2_000_000),
    'full-and-one.roll': lambda: roll(2_000_001),
    'dearest.pb': dearest,
    'faulty.pb': many_faults,
    'faulty.rows': listed_faults,
    'two-clerks.script': lambda: two_clerks(True),
    'two-clerks.rows': lambda: two_clerks(False),
    'far.pb': far_oddities,
    'many.pb': many_projects,
    'many.exported': lambda: many_projects(True),
    'many-voters.exported': lambda: many_projects(True, True),
    'many-claims.pb': many_claims,
    'heavy.pb': heavy_city,
    'heavy.rows': report_of_heavy,
    'long.pb': long_city,
    'long.rows': report_of_long,
    'long.journal': long_journal,
    'long.ballots': long_ballots,
    **{f'report-{size}.pb': lambda size=size: long_report(size) for size in SIZES},
    **{f'report-{size}.rows': lambda size=size: text_of_report(size) for size in SIZES},
}

# Those that `rt try` would be slow on: it copies each file for each case, and runs with checks.
LARGE = {'large.pb', 'largest.pb', 'records.pb', 'records-and-one.pb', 'full.roll', 'full-and-one.roll', 'far.pb', 'heavy.pb', 'full-sheet.pb', 'numbered-sheet.pb',
         'long.journal', *(f'report-{size}.pb' for size in SIZES if size > 100_000)}
