"""The desk: `pb_app serve --by-id --no-shut`, the window's child, which alone writes the journal. Here its answers are
read. The head clerk's shut goes to another child, which takes it."""
import collections, contextlib, csv, io, os, secrets, subprocess, sys, threading, time

import copies, disk, log
from election import Fault, is_fit, records

# How many seconds the start waits for a journal that another run has, and a clerk for an answer; after how
# many without an answer a `serve` is held. How many pages may wait for answers, so that there are workers for
# others, and how many seconds a page waits for the start, or until it may wait for an answer.
LOCKED, ANSWERS, HELD, SEATS, PATIENCE = 10, 60, 3, 32, 1.5
SHOWN = 200     # How many entries of a voter a page shows.
Entry = collections.namedtuple('Entry', 'number clerk request voter places answer')
NOTHING = Entry(0, 0, '', '', '', '')
# How a request ended: with an 'entry'; 'refused', by this name; not sent, since the voter's last entry had
# 'changed', or the desk had 'stopped' or is 'held'; or sent, and it is 'unknown' what came of it.
Outcome = collections.namedtuple('Outcome', 'kind value', defaults=[None])


class Request:
    """What a clerk has looked at and may send, once: a request, with the number of the voter's last entry as it
    was shown. `before` is the entry before which stood what this puts back; None where a clerk has chosen."""

    def __init__(self, clerk, request, voter='', ids=(), seen=0, form=None, before=None):
        self.form, self.clerk, self.request, self.voter = form or secrets.token_urlsafe(16), clerk, request, voter
        self.ids, self.seen, self.outcome, self.turn, self.ended = ids, seen, None, threading.Lock(), threading.Event()
        self.before = before
        # What its answer has to have: its places, or its number among the rows of its `serve`; and when it
        # was sent.
        self.places, self.number, self.sent = '', 0, 0


def started(command, errors):
    """Starts a `serve`: gives it, and the rows that it writes."""
    # A session of its own: Ctrl-C at the window's terminal is no signal to the child.
    child = subprocess.Popen(command, stdin=subprocess.PIPE, stdout=subprocess.PIPE, stderr=errors, start_new_session=True)
    return child, records(io.TextIOWrapper(child.stdout, encoding='utf-8', newline=''))


def send(child, *row):
    """Writes a row to a `serve`. Each field is quoted, so that no line end within one ends the row."""
    text = io.StringIO()
    csv.writer(text, delimiter=';', lineterminator='\n', quoting=csv.QUOTE_ALL).writerow(row)
    child.stdin.write(text.getvalue().encode())
    child.stdin.flush()


class Desk:
    """The child, and what its journal says of each voter."""

    def __init__(self, serve, file, journal, its_log, election):
        self.command, self.files = [*serve, file, journal], (file, journal)
        self.words = disk.opened(f'{journal}.words')
        self.log, self.election, self.votes = its_log, election, election.votes
        # Whoever sends, or starts the child, does it alone, and no page that sends nothing waits for that.
        self.sending, self.seats = threading.RLock(), threading.BoundedSemaphore(SEATS)
        # How many rows this child was sent; who starts it, and since when; whether the next one takes a shut.
        self.sent, self.starting, self.begun, self.guard = 0, threading.Thread(), 0, threading.Lock()
        self.waiting, self.busy, self.newest, self.shut, self.mark = collections.deque(), set(), NOTHING, None, None
        # The child that runs, the line with which one has stopped, on which disk that was, and why none was
        # started after that.
        self.child, self.fault, self.place, self.failure, self.takes_shut = None, None, '', None, False
        self.unknown = {form: Request(it['clerk'], it['request'], it['voter'], seen=it.get('seen', -1), form=form)
                        for form, it in its_log.asked.items()}

    def start(self):
        """Starts the child and reads the journal as it stands. Where another run has it, it tries for some seconds."""
        mark = [getattr(os.stat(self.files[0]), it) for it in ('st_dev', 'st_ino', 'st_size', 'st_mtime_ns')]
        if self.mark not in (None, mark):
            raise Fault(f'{self.files[0]} is not the file that this window began with')
        journal, until = self.files[1], None
        if kept := copies.kept_beside(journal):
            raise Fault(kept)
        if self.log.entries and not os.path.exists(journal):
            raise Fault(self.lacking(self.log.entries, 0))
        first = []
        with contextlib.suppress(OSError):
            os.write(self.words, f'{log.now()}: pb_app serve is started.\n'.encode())
        while first[:1] != ['entries']:
            begin = os.fstat(self.words).st_size
            child, rows = started(self.command + ['--no-shut'] * (not self.takes_shut), self.words)
            first = next((row for row in rows if row[0] != 'torn'), [])
            if first[:1] != ['entries']:
                child.communicate()
                if first[:2] == ['fault', 'locked'] and not until:
                    until = time.monotonic() + LOCKED
                    print(f'Another window or serve has {journal}. Trying for {LOCKED} seconds..', flush=True)
                if first[:2] != ['fault', 'locked'] or time.monotonic() > until:
                    line, more = ';'.join(first) or 'pb_app serve did not start', self.words_from(begin)
                    more += f'Make room on {disk.named(journal)}' * (first[:2] == ['fault', 'write'])
                    raise Fault(f'{line}\n{more}'.strip())
                time.sleep(0.2)
        if lacking := self.read_journal(int(first[1])):
            child.communicate()
            raise Fault(lacking)
        self.mark, self.child, self.fault, self.failure, self.sent, self.takes_shut = mark, child, None, None, 0, False
        self.log.write('started', entries=int(first[1]), state=first[2])
        self.listener = threading.Thread(target=self.listen, args=(child, rows), daemon=True)
        self.listener.start()

    def read_journal(self, count):
        """Takes the entries of the journal. Says so where the newest one that was answered before is not among them."""
        before, self.newest, self.shut = self.newest, NOTHING, None
        # The entries of each voter, in their order, and how many there are of each kind.
        self.history, self.counts = {}, collections.Counter()
        with open(self.files[1], encoding='utf-8', newline='') as text:
            rows = (row for row in records(text) if row[0] != 'journal')
            entries = [NOTHING] + [self.note(next(rows)) for _ in range(count)]
        if count < self.log.entries or before not in entries:
            self.newest = before
            return self.lacking(before.number or self.log.entries, count)

    def words_from(self, begin):
        """What `serve` has written on standard error since then."""
        with open(f'{self.files[1]}.words', encoding='utf-8', errors='replace') as file:
            file.seek(begin)
            return file.read(4096)

    def lacking(self, number, count):
        """What is wrong with a journal that has not all that was answered, and what to do."""
        return (f'{self.files[1]} lacks entry {number}, which was answered (its entries: {count}). Give the right '
                'journal this name. To go on without what this one lacks, end the window and start it again: '
                'the head clerk confirms it there')

    def note(self, row):
        """Takes an entry."""
        entry = self.newest = Entry(int(row[0]), int(row[1]), sys.intern(row[2]), *row[3:5],
                                    sys.intern(row[5]))
        self.history.setdefault(entry.voter, []).append(entry)
        if entry[2::3] == ('shut', 'done'):
            self.shut = entry
        self.counts[entry.clerk, entry.answer.split()[0]] += 1
        return entry

    def listen(self, child, rows):
        """Reads the child's answers, which come in the order of the requests, until it ends."""
        try:
            for row in rows:
                self.take(row)
        except (csv.Error, OSError, ValueError, IndexError, TypeError) as why:
            self.fault = f'pb_app serve cannot be followed: {type(why).__name__}'
            child.kill()
        child.wait()
        with self.sending:
            self.child = None
            self.log.write('ended', status=child.returncode, fault=self.fault)
            if self.fault:
                words = f'run.py: the desk has stopped: {self.fault}. '
                words += f'Make room on {self.place}. ' * self.fault.startswith('fault;write')
                print(words + 'The head clerk’s page says why.', flush=True)
            while self.waiting:
                self.unknown[self.waiting[0].form] = self.waiting[0]
                self.end_first()

    def end_first(self):
        """The request that was sent first has ended."""
        asked = self.waiting.popleft()
        self.busy.discard(asked.voter)
        asked.ended.set()

    def take(self, row):
        """Takes an answer, or the line with which the child ends by itself."""
        if row[0] == 'fault' and row[1] != 'script':
            self.fault, self.place = ';'.join(row), disk.named(self.files[1])
            return
        asked = self.waiting[0]
        if row[0] == 'fault' and row[4:] == [str(asked.number)]:
            asked.outcome, told = Outcome('refused', row[3]), {'refused': row[3]}
            self.log.refused[asked.clerk, row[3]] += 1
        elif row[:5] == [str(self.newest.number + 1), str(asked.clerk), asked.request, asked.voter, asked.places]:
            entry = self.note(row)
            asked.outcome, told = Outcome('entry', entry), {'entry': entry.number, 'answer': entry.answer}
            now = self.log.times[entry.number] = log.now()
            self.log.turnout[now[:10], asked.clerk, asked.request] += entry.answer == 'done'
        else:
            raise ValueError('the answer of another request')
        self.log.write('answered', form=asked.form, clerk=asked.clerk, request=asked.request, **told)
        self.unknown.pop(asked.form, None)
        for it in list(self.unknown.values()):
            if it.voter == asked.voter and told.get('answer') == 'done':
                self.settle(it.form, asked.clerk)
        self.end_first()

    def keep_up(self, is_after_fault=False, seconds=PATIENCE):
        """Starts the child again where it has died without a word; after a fault only the head clerk does.
        Waits for that, some seconds at most: a start that is held goes on by itself."""
        if not (self.child or self.shut) and (is_after_fault or not self.fault):
            with self.guard:
                if not self.starting.is_alive():
                    self.begun, start = time.monotonic(), lambda: self.start_again(is_after_fault)
                    self.starting = threading.Thread(target=start, daemon=True)
                    self.starting.start()
            self.starting.join(0 if self.held() else seconds)

    def start_again(self, is_after_fault):
        with self.sending:
            if not (self.child or self.shut) and (is_after_fault or not self.fault):
                try:
                    self.start()
                except (Fault, OSError) as why:
                    self.fault, self.failure = self.fault or 'pb_app serve has ended without a word', str(why)
                    self.log.write('not-started', fault=self.failure)

    def held(self):
        """For how many seconds `serve` has not answered, where that is long; else 0."""
        try:
            begun = self.begun if self.starting.is_alive() else self.waiting[0].sent
        except IndexError:
            return 0
        lasted = int(time.monotonic() - begun)
        return lasted if lasted >= HELD else 0

    def end(self):
        """Ends the child in order: its input ends, and it leaves the journal at rest, also where it had died before."""
        self.keep_up(seconds=None)
        with self.sending, contextlib.suppress(OSError):
            if self.child:
                self.child.stdin.close()
        self.listener.join(HELD)
        if self.listener.is_alive():
            print('\npb_app serve has not ended yet: most likely it waits for its disk.', flush=True)
        self.listener.join()

    def last(self, voter):
        """The voter's last entry; NOTHING, whose number is 0, where there is none."""
        return self.history.get(voter, [NOTHING])[-1]

    def standing(self, voter, before=float('inf')):
        """The entry by which the voter's ballot stands, or was withdrawn, now or before an entry; None where no
        entry has changed what came with the file."""
        entries = reversed(self.history.get(voter, ()))
        return next((it for it in entries if it.answer == 'done' and it.number < before), None)

    def has_ballot(self, voter, before=float('inf')):
        entry = self.standing(voter, before)
        return entry.request != 'withdraw' if entry else voter in self.votes

    def shown(self, voter):
        """The voter's entries, the newest first, each with whether something else stood before it than now."""
        now, shown = self.standing(voter), self.history.get(voter, [])[-SHOWN:]
        stood, rows = self.standing(voter, shown[0].number) if shown else None, []
        for it in shown:
            rows.insert(0, (it, stood != now))
            stood = it if it.answer == 'done' else stood
        return rows

    def ask(self, asked):
        """Sends a request, and waits for its answer. A second call only waits: nothing is ever sent again.
        While too many wait, nothing is sent, and what was sent is not waited for."""
        if not self.seats.acquire(timeout=PATIENCE):
            return asked.outcome or Outcome('held')
        try:
            with asked.turn:
                outcome = asked.outcome or self.put(asked)
            if outcome.kind == 'unknown' and not asked.ended.wait(ANSWERS):
                self.unknown[asked.form] = asked
                if asked.outcome.kind != 'unknown':     # The answer came at this moment.
                    self.unknown.pop(asked.form, None)
            return asked.outcome or outcome
        finally:
            self.seats.release()

    def put(self, asked):
        """Judges a request and sends it, or says why not. The same form may be sent later if `serve` is held
        now."""
        is_ballot = asked.request in ('cast', 'replace', 'withdraw') and is_fit(asked.voter)
        if not (is_ballot or (asked.request, asked.voter) == ('shut', '')):
            raise ValueError('no such request')
        told = ['form', 'clerk', 'request', 'voter', 'seen'] + ['before'] * (asked.before is not None)
        self.log.write('asked', True, **{it: vars(asked)[it] for it in told})
        self.keep_up(seconds=HELD)
        if self.held() and not self.is_late(asked):
            return self.unsent(asked, 'held')
        if asked.request == 'shut' and self.child:
            # This child takes no shut. It ends in order, and the next one takes this row.
            self.takes_shut = True
            self.end()
            self.keep_up(seconds=None)
        with self.sending:
            asked.places = self.election.places_of(asked.ids)
            if self.fault or self.shut or not self.child or self.child.stdin.closed:
                asked.outcome = self.unsent(asked, 'stopped')
            elif self.is_late(asked):
                asked.outcome = self.unsent(asked, 'changed')
            elif asked.places is None:
                asked.outcome = self.unsent(asked, 'refused', 'UnknownId')
            else:
                self.sent += 1
                asked.outcome, asked.number, asked.sent = Outcome('unknown'), self.sent, time.monotonic()
                self.busy.add(asked.voter)
                self.waiting.append(asked)
                # Where the child has ended, whoever listens to it ends the request.
                with contextlib.suppress(OSError, ValueError):
                    send(self.child, asked.clerk, asked.request, asked.voter, ','.join(asked.ids))
            return asked.outcome

    def is_late(self, asked):
        """Whether another request for this voter came since the clerk looked."""
        return asked.voter in self.busy or self.last(asked.voter).number != asked.seen

    def unsent(self, asked, why, name=None):
        """Notes that a request was not sent."""
        if name:
            self.log.refused[asked.clerk, name] += 1
        more = {'refused': name} if name else {}
        self.log.write('unsent', form=asked.form, clerk=asked.clerk, why=why, **more)
        return Outcome(why, name)

    def settle(self, form, clerk):
        """The clerk who asked, or the head clerk, has seen what came of a request without an answer."""
        if form in self.unknown and clerk in (0, self.unknown[form].clerk):
            self.unknown.pop(form, None)
            self.log.write('settled', form=form, clerk=clerk)
