"""Tries the desk of the clerks' window, without a browser: deaths of `serve` and of the window, faults, ballots of others, the shut desk."""
import concurrent.futures, hashlib, os, pathlib, re, shutil, signal, subprocess

from window_clerk import Clerk, Window, at_terminal, ended, passphrase_of, stop
from window_seen import NAMES, new_folder, see


def try_deaths(program, work):
    """serve is killed, the window is killed, the desk stops by a fault, and the day goes on."""
    folder = new_folder(work, 'deaths')
    with Window(program, folder).start() as window:
        ann, ben, head = Clerk(window), Clerk(window), Clerk(window)
        ann.sign_in('Ann'), head.sign_in('Head')
        see('Entry 1 ' in ann.ask('cast', 'v1', ['12']).seen, 'before')
        window.kill_serve()
        see('Entry 2 ' in ann.ask('cast', 'v2', ['7']).seen, 'serve is killed between two requests, and the day goes on')
        # Killed with a request under way: stopped before, so that it cannot answer.
        form = ann.look('cast', 'v3', ['12'])
        number = window.serve_id()
        stop(number)
        with concurrent.futures.ThreadPoolExecutor(1) as pool:
            waiting = pool.submit(ann.record, form)
            window.await_asked('v3')
            os.kill(number, signal.SIGKILL)
            page = waiting.result()
        see('not known whether this was recorded' in page.seen, 'a request without an answer is not known', page.seen)
        see('not known' in ann.record(form).seen and len(window.entries()) == 2, 'and is not sent again')
        see('no answer came: cast, voter v3' in ann.get('/').seen, 'it is told on the first page', ann.get('/').seen)
        see('no answer came' not in head.get('/').seen, 'and to nobody else')
        page = ann.post('/voter', {'voter': 'v3'})
        see('It was not recorded.' in page.seen and 'Is this what' not in page.seen, 'and what came of it', page.seen)
        ben.sign_in(NAMES[2])
        other = ben.post('/voter', {'voter': 'v3'})
        see('Ann (clerk 1) asked for this' in other.seen and 'This is settled' not in other.seen, 'another clerk is told too', other.seen)
        see('no answer came: cast, voter v3' in head.get('/head').seen, 'and the head clerk, on a page of her own')
        ben.post('/settle', {'voter': 'v3', 'form': page.field('form', '/settle')})
        see('no answer came' in ann.get('/').seen, 'and does not settle it')
        see('Entry 3 ' in ben.ask('cast', 'v3', ['7']).seen, "another clerk's ballot")
        page = ann.post('/voter', {'voter': 'v3'})
        see('Now the last entry is number 3: cast, by Ben' in page.seen and 'Is this what was asked for?' in page.seen,
            'is shown, and asked about', page.seen)
        page = ann.post('/settle', {'voter': 'v3', 'form': page.field('form', '/settle')})
        see('no answer came' not in page.seen + ann.get('/').seen, 'it is settled')
        try_settled(window, ann)
        # The window's machine dies.
        form = ann.look('cast', 'v4', ['99'])
        count = len(window.entries())
        number = window.serve_id()
        stop(number)
        with concurrent.futures.ThreadPoolExecutor(1) as pool:
            waiting = pool.submit(ann.record, form)
            window.await_asked('v4')
            window.child.kill()
            window.child.communicate()
            os.kill(number, signal.SIGCONT)
            see(isinstance(waiting.exception(), OSError) or 'Remote' in repr(waiting.exception()), 'the window is killed', waiting.exception())
        window.start()
        see('Your name' in ann.get('/').seen, 'the sessions have ended')
        head.sign_in('Head')
        page = ann.sign_in('Ann')
        see('no answer came: cast, voter v4' in page.seen, 'the request that had no answer is not known after the start', page.seen)
        page = ann.post('/voter', {'voter': 'v4'})
        stood = len(window.entries()) == count + 1
        see((f'is number {count + 1}: cast, by Ann' if stood else 'It was not recorded.') in page.seen, 'and what came of it', page.seen)
        ann.post('/settle', {'voter': 'v4', 'form': page.field('form', '/settle')})
        count = len(window.entries())
        see(f'Entry {count + 1} ' in ann.ask('replace' if stood else 'cast', 'v4', ['7']).seen, 'the day goes on')
        # A journal that is shorter than what was answered, and legal: nobody goes on with it.
        text = window.journal.read_bytes()
        window.kill_serve()
        os.truncate(window.journal, text.index(b'\n2;') + 1)
        page = ann.ask('cast', 'v5', ['12'])
        see('nothing was sent' in page.seen and f'lacks entry {count + 1}' in page.seen and len(window.entries()) == 1,
            'a shortened journal stops the desk', page.seen)
        head.get('/head')
        head.post('/again', {})
        see(f'lacks entry {count + 1}' in head.get('/head').seen and len(window.entries()) == 1, 'and stops it again')
        with open(window.journal, 'r+b') as file:
            file.write(text)
        head.post('/again', {})
        see('is open' in head.get('/head').seen, 'the right text is back', head.get('/head').seen)
        # The journal is moved away: nothing is made in its place, and nobody is answered.
        window.journal.rename(folder / 'elsewhere')
        page = ann.ask('cast', 'v5', ['12'])
        see('not known' in page.seen, 'a journal that was moved: no answer', page.seen)
        see('has stopped' in ann.get('/').seen and 'fault;moved;2' in head.get('/head').seen, 'the fault is told', head.get('/head').seen)
        page = ann.post('/voter', {'voter': 'v5'})
        see('Look again once the desk runs.' in page.seen and 'It was not recorded' not in page.seen and 'is settled' not in page.seen,
            'what came of the request is not told before the journal is read', page.seen)
        head.get('/head')
        page = head.post('/again', {})
        seen = head.get('/head').seen
        see(not window.journal.exists() and 'has stopped' in seen, 'no new journal is made in its place')
        see('fault;moved;2' in seen and 'city.journal.kept is here' in seen and 'Call the head clerk' not in seen,
            'the fault is still told, and why nothing was started', seen)
        (folder / 'city.journal.kept').unlink()
        (folder / 'elsewhere').rename(window.journal)
        head.get('/head')
        head.post('/again', {})
        see('is open' in head.get('/head').seen, 'the head clerk starts the desk again', head.get('/head').seen)
        see('It was not recorded.' in ann.post('/voter', {'voter': 'v5'}).seen, 'and then it is')
        see(f'Entry {count + 2} ' in ann.ask('cast', 'v6', ['12']).seen, 'the day goes on')
        window.kill_serve()
        said, status = window.end(signal.SIGTERM)
        digest = hashlib.sha256(window.journal.read_bytes()).hexdigest()
        see(status == 0 and digest in said and f'Entries: {count + 2},' in said, 'a signal ends it in order, also where serve had died', said)
    see(window.audit().stdout == f'entries;{count + 2};open\n', 'the journal is audited', window.audit())


def try_settled(window, ann):
    """A request without an answer is settled as soon as its clerk has one recorded for this voter."""
    form = ann.look('cast', 'v9', ['12'])
    number = window.serve_id()
    stop(number)
    with concurrent.futures.ThreadPoolExecutor(1) as pool:
        waiting = pool.submit(ann.record, form)
        window.await_asked('v9')
        os.kill(number, signal.SIGKILL)
        see('not known' in waiting.result().seen, 'one more request without an answer')
    see('no answer came: cast, voter v9' in ann.get('/').seen, 'which is told')
    page = ann.ask('cast', 'v9', ['12', '7', '99', '99'])
    see('Recorded.' in page.seen and 'no answer came' not in page.seen + ann.get('/').seen, 'what is recorded settles it', page.seen)
    see(window.log()[-1]['what'] == 'settled' or window.log()[-2]['what'] == 'settled', 'in the log too', window.log()[-2:])


def try_shut(program, work):
    """Counts, shutting, the result, the copy of the evening."""
    folder = new_folder(work, 'shut')
    (folder / 'copies').mkdir()
    with Window(program, folder, options=['--backup', folder / 'copies', '--title', 'A <b>vote</b>', '--count', '--measure cost']).start() as window:
        head, ann, ben = (Clerk(window) for _ in range(3))
        head.sign_in('Head'), ann.sign_in('Ann'), ben.sign_in(NAMES[2])
        ann.ask('cast', 'v1', ['12', '7'])
        ben.ask('cast', 'v1', ['7'])
        page = ben.post('/voter', {'voter': 'v1'})
        see('entry 1, taken by Ann (clerk 1)' in page.seen and 'checked' not in page.text and 'class="ballot"' not in page.text,
            'another clerk is told that a ballot stands, not what it holds', page.seen)
        whole = 'A new ballot replaces the whole old one. Tick all projects that the voter wants.'
        see(whole in page.seen, 'and that a new one replaces it', page.seen)
        see('old' not in ben.post('/voter', {'voter': 'v2'}).seen, 'where no ballot stands nothing is said of one')
        page = head.post('/voter', {'voter': 'v1'})
        see('class="ballot"' not in page.text and 'this is logged' in page.seen, 'nor is the head clerk')
        page = head.post('/show', {'voter': 'v1'})
        see('class="ballot"' in page.text and 'Library' in page.text.split('class="ballot"')[1].split('</ul>')[0], 'unless asked for')
        see(whole in page.seen and ' checked' not in page.text, 'and nothing is ticked', page.seen)
        see([it for it in window.log() if it['what'] == 'looked'] and window.log()[-1]['voter'] == 'v1', 'which is logged')
        page = ann.post('/voter', {'voter': 'v1'})
        see('Library' in page.text.split('class="ballot"')[1].split('</ul>')[0] and whole in page.seen
            and ' checked' not in page.text, 'the clerk who took it sees it, and begins without ticks as well', page.seen)
        page = ann.look('replace', 'v1', ['7'])
        see('The old ballot is deleted: only this one will count.' in page.seen, 'the old ballot is deleted, it says', page.seen)
        new, old = page.text.split('The old ballot</h2>')
        see('Library' in old and 'Library' not in new and 'Park' in new, 'the check page shows the old ballot and the new one', page.seen)
        page = ben.look('replace', 'v1', ['12'])
        see('The old ballot is deleted' in page.seen and 'The old ballot</h2>' not in page.text and 'Park' not in page.text,
            'but the old one to nobody else', page.seen)
        page = ann.look('replace', 'v1', ['7'])
        page = ann.post('/voter', {'voter': 'v1', 'form': page.field('form')})
        see(page.text.count(' checked') == 1 and 'The new choices are ticked below.' in page.seen,
            'what was ticked is ticked again', page.seen)
        pages = [ann.look('cast', 'v2', ['7']).seen, ann.look('withdraw', 'v1').seen]
        see('is deleted' not in ''.join(pages) and 'The old ballot' not in pages[0] and 'The old ballot' in pages[1],
            'no other check page says so', pages)
        page = ben.post('/voter', {'voter': 'old1'})
        see('it came with the file' in page.seen and 'class="ballot"' not in page.text and whole in page.seen,
            'a ballot of the file is secret too')
        page = ben.look('withdraw', 'old2')
        see('Withdraw it' in page.seen and 'Back' in page.seen, 'a withdrawal says what its buttons do', page.seen)
        ben.record(page)
        page = ann.post('/voter', {'voter': 'old2'})
        see('This voter has no ballot: it was withdrawn by entry 3, Ben & "Co" <b> (clerk 2).' in page.seen, 'and by which entry', page.seen)
        ben.ask('cast', 'v3', ['nowhere']), ben.ask('cast', 'v3', ['nothing'])
        seen = head.get('/head').seen
        see(re.search(r'Clerk ?Recorded\. ?Not recorded: this voter has a ballot already\. ?Not recorded: no project has[^.]*\. '
                      r'?Ann \(clerk 1\) ?1 ?0 ?0 ?Ben & "Co" <b> \(clerk 2\) ?1 ?1 ?2 ', seen), 'the counts by clerk and answer', seen)
        see('Signed in besides you: Ann (clerk 1), Ben & "Co" <b> (clerk 2).' in seen, 'who is signed in', seen)
        ann.get('/'), ann.post('/sign-out', {})
        see('Signed in besides you: Ben & "Co" <b> (clerk 2).' in head.get('/head').seen, 'and who no longer is', head.get('/head').seen)
        late = ben.look('cast', 'late', ['12'])
        head.get('/head')
        see(head.post('/shut', {'word': 'yes'}).status == 400 and len(window.entries()) == 3, 'shutting needs its word')
        words = lambda: pathlib.Path(f'/proc/{window.serve_id()}/cmdline').read_bytes().split(b'\0')
        see(b'--no-shut' in words(), 'the child takes no shut', words())
        page = head.post('/shut', {'word': 'shut'})
        told = [(it['what'], it.get('entries')) for it in window.log() if it['what'] in ('started', 'ended')][:3]
        see(told == [('started', 0), ('ended', None), ('started', 3)], 'for the shut another one is started', told)
        see('Entry 4 ' in page.seen and window.entries()[3][2:] == ['shut', '', '', 'done'], 'the desk is shut', page.seen)
        page = ben.record(late)
        see('Not recorded: nothing was sent. You asked for this: cast, voter late. The desk was shut by entry 4.' in page.seen
            and len(window.entries()) == 4, 'a late form is not sent', page.seen)
        see([it['why'] for it in window.log() if it['what'] == 'unsent'] == ['refused', 'refused', 'stopped'], 'which is in the log')
        see('taken by Ann (clerk 1)' in ben.post('/voter', {'voter': 'v1'}).seen, 'a voter can still be looked up')
        report = head.get('/result/report.txt').body
        see(report.decode() == window.audit('--digests', '--require-shut', '--measure', 'cost').stdout and b'digest;journal;sha256;' in report,
            'the report with the digests', report)
        see('elected;' in head.get('/result').seen and 'digest;' in head.get('/result').seen, 'the report is shown')
        see('Ben' in head.get('/head').seen and re.search(r'\(clerk 2\) ?1 ?1 ?2 ', head.get('/head').seen), 'and the counts')
        page = head.get('/result/result.html')
        wanted = subprocess.run([program, 'page', window.file, '--journal', window.journal, '--title', 'A <b>vote</b>', '--measure', 'cost'],
                                capture_output=True).stdout
        see(all('<title>' + it in head.get(path).text for path,
                it in (('/', 'Next voter - A &lt;b&gt;vote&lt;/b&gt;</title>'),
                ('/head', 'The head clerk - A &lt;b&gt;vote'))), "the pages have the office's title, as text")
        see(page.body == wanted and 'attachment' in page.headers['Content-Disposition'], 'the page of the result')
        copies = sorted((folder / 'copies').iterdir())
        see(len(copies) == 1 and copies[0].name.endswith('-evening') and (copies[0] / 'city.journal').read_bytes() == window.journal.read_bytes()
            and subprocess.run(['sha256sum', '-c', 'SHA256SUMS'], cwd=copies[0], capture_output=True).returncode == 0, 'the copy', copies)
        said, status = window.end()
        window.start()
        head.sign_in('Head')
        see('elected;' in head.get('/result').seen and head.get('/result/report.txt').body == report, 'a shut desk shows its result again')
        see(re.search(r'\(clerk 2\) ?1 ?1 ?2 ', head.get('/head').seen), 'and its counts, also what was refused', head.get('/head').seen)
        shutil.rmtree(folder / 'copies')
        said, status = window.end()
        see(status == 1 and 'No copy was made' in said and 'write both down' in said, 'a copy that fails is told', said, status)
        (folder / 'copies').mkdir()
        window.options[-1] = '--measure nothing'
        told, status = at_terminal(window, passphrase_of('Head'))
        see(status is None and '--count was "--measure cost", and is "--measure nothing".' in told,
            'other options of the count are confirmed', told)
        head.sign_in('Head')
        page = head.get('/result')
        see(page.status == 500 and 'The program refused' in page.seen and 'nothing' in page.seen, 'options of the count that are none', page.seen)
        ended(window)
