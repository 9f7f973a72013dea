"""Tries what a clerk sees of a voter's history, and how the head clerk puts back what stood."""
import datetime, subprocess

from window_clerk import PYTHON, TOP, Clerk, Window, at_terminal, ended, passphrase_of, roll_given
from window_seen import CITY, NAMES, new_folder, see

# A log whose journal was replaced by an older one.
OLDER = '''
import json, log, sys
answered = [('answered', {'entry': number}) for number in (1, 2, 3)]
lines = [*answered, ('started', {'entries': 1}), answered[1]]
with open(sys.argv[1], 'w') as file:
    for day, (what, more) in enumerate(lines):
        line = {'time': f'2026-11-0{day + 1}T10:00:00.000Z', 'what': what, 'form': str(day), 'clerk': 1, **more}
        print(json.dumps(line), file=file)
print(*(f'{number}:{time[8:10]}' for number, time in log.Log(sys.argv[1]).times.items()))
'''
HOLDS = '<ul class="ballot">'


def look_back(head, voter, before):
    """Goes as far as the page that asks to look once more, by the button for an entry."""
    page = head.post('/voter', {'voter': voter})
    return head.post('/back', {'voter': voter, 'before': before, 'seen': page.field('seen', '/back')})


def buttons(page):
    """The entries for which a page offers to put back what stood before."""
    return [int(piece.split('"')[0]) for piece in page.text.split('name="before" value="')[1:]]


def try_back(program, work):
    """A wrong id: the history says who, when and what was answered; what stood is put back, and that is logged."""
    folder = new_folder(work, 'back')
    with Window(program, folder).start() as window:
        ann, ben, head = Clerk(window), Clerk(window), Clerk(window)
        ann.sign_in('Ann'), ben.sign_in(NAMES[2]), head.sign_in('Head')
        see('What was asked' not in ben.post('/voter', {'voter': 'old1'}).seen, 'no entry, no history')
        see('Entry 1 ' in ann.ask('replace', 'old1', ['99']).seen, 'a ballot for a wrong id')
        try_shown(window, ben, head)
        try_file_ballot(window, ben, head)
        try_entries(window, ann, head)
        try_changed(window, ann, head)
        window.end()
        window.start()
        ben.sign_in(NAMES[2]), head.sign_in('Head')
        see('not in the log' not in ben.post('/voter', {'voter': 'old1'}).seen,
            'times are known after a start')
        late = look_back(head, 'old1', 1)
        head.get('/head')
        head.post('/shut', {'word': 'shut'})
        count = len(window.entries())
        see('nothing was sent' in head.record(late).seen and len(window.entries()) == count,
            'nothing is put back at a shut desk')
        page = head.post('/voter', {'voter': 'old1'})
        see(not buttons(page) and 'What was asked' in page.seen,
            'a shut desk shows the history, and offers nothing', page.seen)
        page = head.post('/back', {'voter': 'old1', 'before': 1, 'seen': 2})
        see('The desk is shut: it will not take this.' in page.seen, 'and says so', page.seen)
        window.end()
    see(window.audit('--require-shut').returncode == 0, 'the journal is audited', window.audit())
    try_refusals(program, work)
    done = subprocess.run([PYTHON, '-B', '-c', OLDER, work / 'log'], cwd=TOP / 'window', capture_output=True,
                          text=True)
    see(done.stdout == '1:01 2:05\n', 'an entry of an older journal has no time of another one', done)


def try_shown(window, ben, head):
    """What another clerk and the head clerk see of an entry; only the head clerk may put back."""
    time = next(it['time'] for it in window.log() if it.get('entry') == 1)
    day = f'{datetime.datetime.fromisoformat(time).astimezone():%-d %B %Y, %H:%M}'
    for clerk in (ben, head):
        page = clerk.post('/voter', {'voter': 'old1'})
        rows = page.seen[page.seen.index('What was asked'):]
        see(f' 1{day}Ann (clerk 1)replaceRecorded.' in rows.replace('> ', '>')
            and '0A ballot came with the file.' in rows,
            'which entry, when by the log, by whom, and its answer', rows[:300], day)
        see(HOLDS not in page.text, 'and not what a ballot holds', page.text)
    see(buttons(page) == [1], 'the head clerk has a button for it', buttons(page))
    page = ben.post('/voter', {'voter': 'old1'})
    see(not buttons(page) and 'The head clerk can put back what stood.' in page.seen, 'a clerk has words',
        page.seen)
    page = ben.post('/back', {'voter': 'old1', 'before': 1, 'seen': 1})
    see(page.status == 403 and 'Only the head clerk may do this.' in page.seen
        and window.log()[-1]['path'] == '/back',
        'nobody else puts anything back, and trying is logged', page.seen)


def try_file_ballot(window, ben, head):
    """The ballot that came with the file is put back, once, as each other request."""
    page = look_back(head, 'old1', 1)
    see('Before entry 1 this voter had the ballot that came with the file.' in page.seen
        and 'is deleted' in page.seen
        and HOLDS not in page.text and 'Library' not in page.seen, 'what is put back is named, and not shown',
        page.seen)
    see(len(window.entries()) == 1 and window.log()[-1]['what'] != 'looked',
        'nothing is sent before that is asked for')
    shown = head.post('/show', {'form': page.field('form')})
    see('Library' in shown.seen and 'Park & ride' in shown.seen and '2 projects' in shown.seen,
        'it is shown on demand', shown.seen)
    told = window.log()[-1]
    see((told['what'], told['clerk'], told['voter'], told['before']) == ('looked', 0, 'old1', 1),
        'and that is logged', told)
    see(ben.post('/show', {'form': page.field('form')}).status == 403, 'to the head clerk alone')
    answers = [head.record(shown) for _ in range(2)]
    see(all('Recorded. Entry 2 of the journal: replace, voter old1.' in it.seen for it in answers),
        'it is recorded', answers[0].seen)
    see(window.entries()[1:] == [['2', '0', 'replace', 'old1', '0,1', 'done']],
        'as one entry of the head clerk', window.entries())
    asked, answer = [it for it in window.log() if it.get('form') == page.field('form')]
    see((asked['what'], asked['clerk'], asked['request'], asked['voter'], asked['seen'], asked['before'])
        == ('asked', 0, 'replace', 'old1', 1, 1),
        'the log says before it is sent that it puts something back', asked)
    see((answer['what'], answer['entry'], answer['answer']) == ('answered', 2, 'done'), 'and what came of it',
        answer)


def try_entries(window, ann, head):
    """What stood before each entry, and no other: none, one, and one before that."""
    steps = [('cast', 'v9', ['12']), ('cast', 'v8', ['12']), ('replace', 'v8', ['7']),
             ('replace', 'v8', ['99']),
             ('cast', 'v8', ['7'])]
    for step in steps:
        ann.ask(*step)
    see([row[5] for row in window.entries()[2:]] == ['done'] * 4 + ['already-cast'], 'entries 3 to 7',
        window.entries())
    page = look_back(head, 'v9', 3)
    see('Before entry 3 this voter had no ballot.' in page.seen, 'where none stood', page.seen)
    see('Put back: no ballot' in page.seen.split('had no ballot')[1] and 'Withdraw' not in page.seen,
        'the button has the same name as what was pressed', page.seen)
    head.record(page)
    see(window.entries()[-1] == ['8', '0', 'withdraw', 'v9', '', 'done'], 'the ballot is withdrawn',
        window.entries()[-1])
    head.record(look_back(head, 'v9', 8))
    see(window.entries()[-1] == ['9', '0', 'cast', 'v9', '0', 'done'], 'a withdrawal is undone by a cast',
        window.entries()[-1])
    page = head.post('/voter', {'voter': 'v8'})
    see(buttons(page) == [6, 5, 4], 'where the same stood as now nothing is offered', buttons(page))
    for before, words, places in ((6, 'the ballot of entry 5, taken by Ann', '1'),
                                  (5, 'the ballot of entry 4, taken by Ann', '0')):
        page = look_back(head, 'v8', before)
        see(words in page.seen and HOLDS not in page.text, f'what stood before entry {before}', page.seen)
        head.record(page)
        see(window.entries()[-1][1:] == ['0', 'replace', 'v8', places, 'done'], 'is put back',
            window.entries()[-1])
    count = len(window.entries())
    for voter, before in (('v8', '3'), ('v8', '1'), ('v8', '0'), ('v8', ''), ('v8', 'x'), ('v8', '²'),
                          ('v8', '9' * 30), ('nobody', '1')):
        page = head.post('/back', {'voter': voter, 'before': before, 'seen': str(count)})
        see(page.status == 400, 'only before entries of this voter', voter, before, page.status)
    see(len(window.entries()) == count, 'and nothing is sent')


def try_changed(window, ann, head):
    """Where the voter's last entry has changed since it was shown, nothing is sent."""
    count = len(window.entries())
    form = look_back(head, 'v8', 4)
    page = head.post('/voter', {'voter': 'v8'})
    ann.ask('replace', 'v8', ['12', '7'])
    for it in (form, head.post('/back', {'voter': 'v8', 'before': 5, 'seen': page.field('seen', '/back')})):
        page = head.record(it)
        see('Nothing was sent.' in page.seen and f'entry {count + 1}, replace' in page.seen
            and len(window.entries()) == count + 1,
            'another request came: nothing is put back', page.seen)
        see(window.log()[-1]['why'] == 'changed', 'which is in the log', window.log()[-1])


def try_refusals(program, work):
    """What the desk will refuse is said before it is asked, and the way back shows no ballot."""
    folder = new_folder(work, 'refusals')
    text = CITY.replace('max_length;3', 'max_length;1')
    (folder / 'city.pb').write_text(text)
    (folder / 'roll.csv').write_text('v1\nv2\nold1\n')
    rows = '1;cast;v1;3\n1;replace;v1;0\n1;cast;v2;\n1;replace;v2;0\n1;replace;old1;0\n1;replace;old2;0\n'
    rows += '1;cast;v3;0\n' + '2;cast;v3;1\n' * 100 + '1;replace;v3;1\n' + '2;cast;v3;1\n' * 199
    rows += '1;cast;v4;0\n' + '2;cast;v4;1\n' * 205
    done = subprocess.run([program, 'serve', folder / 'city.pb', folder / 'city.journal'], input=rows,
                          capture_output=True, text=True)
    see(done.stdout.count('done') == 9 and done.stdout.count('\n') == 514, '513 entries', done)
    warned = 'A ballot has 1 at least, 1 at most: the desk will not take this one.'
    with Window(program, folder, options=['--roll', folder / 'roll.csv', '--min', 1]) as window:
        told, status = at_terminal(window, passphrase_of('Head'))
        see(status is None and 'city.journal.window and ' in told, 'a journal without a log is confirmed',
            told)
        see(roll_given(window.serve_id()) == folder / 'roll.csv', 'serve itself reads a roll of ids alone')
        head = Clerk(window)
        head.sign_in('Head')
        page = head.post('/voter', {'voter': 'v1'})
        see('2not in the logAnn (clerk 1)replace' in page.seen, 'entries that the log does not have',
            page.seen)
        page = head.post('/voter', {'voter': 'v3'})
        see(page.seen.count('not in the log') == 200
            and 'Older entries are not shown here: the first is entry 7.' in page.seen
            and buttons(page) == [108], 'the newest 200 entries of many', buttons(page), page.seen[-3000:])
        page = head.post('/voter', {'voter': 'v4'})
        see(page.seen.count('not in the log') == 200 and not buttons(page),
            'none of which has changed anything', buttons(page))
        for voter, before, words, answer in (
                ('v2', 4, warned, 'the ballot has too few projects'),
                                             ('old1', 5, warned, 'the ballot has too many projects'),
                ('old2', 6, 'This voter is not on the roll: the desk will not take this.',
                 'this voter is not on the roll'),
                ('v1', 2, 'No row can name all projects of this ballot', 'no project has an id')):
            page = look_back(head, voter, before)
            see(words in page.seen and HOLDS not in page.text, f'{answer}: said before', page.seen)
            see(('start it with “--min 0”' in page.seen, 'The city’s file has this limit' in page.seen)
                == ('too few' in answer, 'too many' in answer), f'{answer}: and what to do', page.seen)
            page = head.record(page)
            see('Not recorded' in page.seen and answer in page.seen, f'{answer}: and refused', page.seen)
            page = head.post('/voter', {'voter': voter,
                                        'form': page.text.split('<button name="form" value="')[1].split('"')[0]})
            see(' checked' not in page.text and HOLDS not in page.text, 'the way back shows no ballot',
                page.text)
        see([row[5] for row in window.entries()[513:]] == ['too-long'],
            'a row that names other projects is never sent', window.entries())
        ended(window)
        # What the words say: with --min 0 it is put back, and then the window is started as before.
        for least in (0, 1):
            window.options[-1] = str(least)
            told, status = at_terminal(window, passphrase_of('Head'))
            see(status is None and f'--min was {1 - least}, and is {least}.' in told,
                'another minimum is confirmed', told)
            head.sign_in('Head')
            if not least:
                head.record(look_back(head, 'v2', 4))
                see(window.entries()[-1][1:] == ['0', 'replace', 'v2', '', 'done'],
                    'what was below the minimum is put back', window.entries()[-1])
            ended(window)
    see(window.audit().returncode == 0, 'the journal is audited', window.audit())
