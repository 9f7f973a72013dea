"""The pages: what a clerk sees, and what comes of each form."""
import contextlib, hashlib, hmac, os, secrets, traceback

from flask import Flask, Response, abort, g, make_response, redirect, render_template, request
from markupsafe import Markup
from werkzeug.exceptions import HTTPException

import desk, election, log, overnight

app = Flask(__name__)
app.logger.disabled = True      # What fails is said in the window's own log: nobody may read standard error.
app.jinja_env.trim_blocks = app.jinja_env.lstrip_blocks = True
office = None       # The day, which run.py puts here.
KEY = os.urandom(32)
HEADERS = {'Cache-Control': 'no-store', 'Referrer-Policy': 'no-referrer', 'X-Content-Type-Options': 'nosniff',
           'Content-Security-Policy': "default-src 'none'; frame-ancestors 'none'; base-uri 'none'; form-action 'self'; "
                                      "style-src 'self'; script-src 'self'; img-src data:; connect-src 'self'"}
# What the desk answers; after that why it refuses a row, which is then no entry, and why there is no answer.
ANSWERS = {'done': 'Recorded.', 'already-cast': 'Not recorded: this voter has a ballot already.',
           'no-ballot': 'Not recorded: this voter has no ballot.',
           'too-long': 'Not recorded: the ballot has too many projects.',
           'voter-limit': 'Not recorded: the desk has as many ballots as it can hold.',
           'desk-shut': 'Not recorded: the desk is shut.',
           'UnknownId': 'Not recorded: no project has an id that the ballot names.',
           'NotOnRoll': 'Not recorded: this voter is not on the roll.',
           'TooFew': 'Not recorded: the ballot has too few projects.',
           'FromFile': 'Not recorded: the desk takes no request for a voter of the city’s file.',
           'changed': 'Nothing was sent.', 'stopped': 'Not recorded: nothing was sent.', 'held': 'Not recorded: nothing was sent.',
           'unknown': 'It is not known whether this was recorded.'}
# Why the desk has stopped.
STOPS = {'write': 'The disk of the journal is full or fails.', 'memory': 'There was no memory left.',
         'moved': 'Somebody moved or replaced the journal.', 'audit': 'The journal was edited.'}
STALE = 'The form is too old, or you were signed out. Nothing was sent to the desk just now. Look up the voter to see what is recorded.'


def token_of(cookie):
    """What each form carries beside a cookie."""
    return hmac.new(KEY, cookie.encode(), hashlib.sha256).hexdigest()


def cookie_of(kind):
    """The name of a cookie, by the port: cookies know no ports."""
    return f"{'__Host-' if office.scheme == 'https' else ''}window-{office.port}-{kind}"


def cookie(kind):
    return request.cookies.get(cookie_of(kind), '')


def keep(answer, kind, value, seconds=None):
    answer = make_response(answer)
    answer.set_cookie(cookie_of(kind), value, seconds, secure=office.scheme == 'https', httponly=True, samesite='Strict')
    return answer


def page(body, title, **more):
    """A page of the window: base.html, and this template within it."""
    return render_template('base.html', body=f'{body}.html', title=title, **more)


def say(title, words, status=200):
    return page('start', title, words=words), status


@app.before_request
def check():
    """Lets through what comes from a page of this window, and from a clerk who is signed in."""
    g.session = g.clerk = None
    if request.headers.get('Host') not in office.hosts:
        return say('Wrong address', 'The window is not at this address. Ask the head clerk for the right one.', 400)
    g.session = office.sessions.find(cookie('session'), office.door.clerks())
    g.clerk = g.session and g.session.clerk['number']
    if request.method == 'POST':
        # A page without a referrer sends its forms with the origin null; then Sec-Fetch-Site says whether they are ours.
        origin, site, kind = request.headers.get('Origin', 'null'), request.headers.get('Sec-Fetch-Site'), request.mimetype
        is_ours = origin == f'{office.scheme}://{request.host}' or (origin, site) == ('null', 'same-origin')
        # No body of another kind is read: it could be broken in ways that fail within a library.
        token, held = 'urlencoded' in kind and request.form.get('token') or '', cookie('session' if g.session else 'sign-in')
        if not (is_ours and held and hmac.compare_digest(token.encode(), token_of(held).encode())):
            office.log.write('refused', path=request.path, address=request.remote_addr, clerk=g.clerk)
            return say('Not accepted', STALE, 403)
    if g.session is None and request.endpoint not in ('start', 'sign_in', 'static', None):
        return redirect('/', 303)
    if g.clerk != 0 and request.endpoint in ('show_ballot', 'put_back', 'head', 'again', 'shut', 'result'):
        office.log.write('refused', path=request.path, address=request.remote_addr, clerk=g.clerk)
        return say('For the head clerk', 'Only the head clerk may do this. Nothing was sent to the desk.', 403)


@app.context_processor
def words():
    """What each page knows."""
    held = cookie('session') if g.session else g.get('fresh', cookie('sign-in'))
    why = STOPS.get((office.desk.fault or '').partition(';')[2].split(';')[0], '')
    why += f' Make room on {office.desk.place}.' * (why == STOPS['write'] and g.clerk == 0)
    return {'clerk': g.clerk, 'office_title': office.given.title or 'Clerks’ window', 'desk': office.desk,
            'keeper': office.keeper, 'turnout': office.log.turnout, 'election': office.election, 'why_stopped': why,
            'log_failure': office.log.why_not(), 'log_place': office.log.place, 'unknown': list(office.desk.unknown.values()),
            'is_kept': lambda it: office.given.keep_file_ballots and it in office.election.votes,
            'said': lambda name: ANSWERS.get(name.split()[0], f'Not recorded: {name}.'),
            'name_of': office.door.name_of, 'who': lambda it: f"{office.door.name_of(it)} (clerk {it}{', you' * (it == g.clerk)})",
            'when': when, 'is_cased': is_cased, 'named': office.roll.names if office.roll else {},
            'is_off_roll': lambda it: office.roll is not None and it not in office.roll.names,
            'token': Markup('<input type="hidden" name="token" value="%s">') % token_of(held)}


@app.after_request
def close(answer):
    answer.headers.update(HEADERS)
    return answer


@app.errorhandler(Exception)
def failed(why):
    """Says in the log where the window failed, and nothing of what was sent."""
    if isinstance(why, HTTPException):
        return say(why.name, 'Nothing was sent to the desk.', why.code)
    if isinstance(why, log.Unwritten):
        return say('Nothing was sent', 'Nothing was sent to the desk just now. Try again once there is room.', 503)
    if isinstance(why, election.Fault):
        return say('The program refused', str(why), 500)
    where = traceback.format_tb(why.__traceback__)[-1].splitlines()[0].strip()
    kind, clerk = type(why).__name__, g.get('clerk')
    office.log.write('failed', address=request.remote_addr, clerk=clerk, kind=kind, where=where)
    return say('The window failed', 'Look at the voter again: it is not known whether anything was recorded.', 500)


@app.get('/')
def start():
    if g.session:
        office.desk.keep_up()
        return page('start', 'Next voter')
    g.fresh = cookie('sign-in') or secrets.token_urlsafe(32)
    return keep(page('sign_in', 'Sign in'), 'sign-in', g.fresh)


@app.post('/sign-in')
def sign_in():
    name, address = request.form.get('name', '').strip(), request.remote_addr
    mark_in = lambda number: cookie(f'mark-{number}')
    clerk, wait = office.door.judge(name, request.form.get('passphrase', ''), address, mark_in)
    if not clerk:
        office.log.write('not-signed-in', address=address, wait=round(wait))
        why = f'Wait {int(wait) + 2} seconds, and try again.' if wait else 'The name or the passphrase is wrong.'
        return page('sign_in', 'Sign in', words=why), 429 if wait else 403
    office.log.write('signed-in', clerk=clerk['number'], address=address)
    office.sessions.pop(cookie('session'), None)
    answer = keep(redirect('/', 303), 'session', office.sessions.begin(clerk, office.door.clerks()))
    return keep(answer, f"mark-{clerk['number']}", office.door.mark_of(clerk, secrets.token_hex(16)), 366 * 86400)


@app.post('/sign-out')
def sign_out():
    office.sessions.pop(cookie('session'), None)
    office.log.write('signed-out', clerk=g.clerk)
    return keep(redirect('/', 303), 'session', '', 0)


def asked_voter():
    """The voter's id of a form, trimmed as the desk does."""
    voter = request.form.get('voter', '').strip(election.SPACE)
    if not election.is_fit(voter):
        words = (f'A voter’s id has at least one character, at most {election.LONGEST_ID} bytes, and only '
                 'characters that can be seen. Type it again.')
        abort(make_response(say('No such id', words, 400)))
    return voter


def when(number):
    """When an entry was answered, as the log has it."""
    with contextlib.suppress(KeyError, ValueError):
        return overnight.day_of(office.log.times[number])
    return 'not in the log'


def ballot_of(voter, is_asked_for=False):
    """The projects of a voter's ballot: for the clerk who took it, and for the head clerk who asks; else None."""
    entry = office.desk.standing(voter)
    is_own = entry is not None and entry.clerk == g.clerk
    if office.desk.has_ballot(voter) and (is_own or is_asked_for):
        return office.election.held(voter, entry)


def is_cased(voter):
    """Whether nobody is known by this id, and somebody by one with other capital letters."""
    places = [office.desk.history, office.election.votes, office.roll.names if office.roll else ()]
    is_known = lambda it: any(it in place for place in places)
    return not is_known(voter) and (is_known(voter.lower()) or is_known(voter.upper()))


def show(voter, ids=None, is_asked_for=False):
    """The page of a voter. It begins without ticks, or with those that the clerk has just made."""
    office.desk.keep_up()
    return page('voter', 'Voter', voter=voter, ids=ids, held=ballot_of(voter, is_asked_for))


@app.post('/voter')
def voter():
    asked = g.session.forms.get(request.form.get('form'))
    if asked is None:
        return show(asked_voter())
    # What the head clerk puts back is nobody's choice, and is not shown before that is asked for.
    return show(asked.voter, asked.ids if asked.request != 'withdraw' and asked.before is None else None)


@app.post('/show')
def show_ballot():
    asked = g.session.forms.get(request.form.get('form'))
    if asked and asked.before is not None:
        office.log.write('looked', is_synced=True, clerk=g.clerk, voter=asked.voter, before=asked.before)
        return look_at(asked, is_asked_for=True)
    office.log.write('looked', is_synced=True, clerk=g.clerk, voter=asked_voter())
    return show(asked_voter(), is_asked_for=True)


@app.post('/look')
def look():
    """What will be recorded, before it is sent."""
    wanted, seen = request.form.get('request'), number_in('seen')
    if wanted not in ('cast', 'replace', 'withdraw'):
        abort(400)
    ids = election.ids_of(','.join(request.form.getlist('id'))) if wanted != 'withdraw' else []
    return look_at(desk.Request(g.clerk, wanted, asked_voter(), ids, seen))


@app.post('/back')
def put_back():
    """What stood before an entry of a voter, to be recorded again."""
    voter, before, it = asked_voter(), number_in('before'), office.desk
    if before not in [entry.number for entry in it.history.get(voter, ())]:
        abort(400)
    has, had = it.has_ballot(voter), it.has_ballot(voter, before)
    ids = [project.id for project in office.election.held(voter, it.standing(voter, before))] if had else []
    wanted = ('replace' if has else 'cast') if had else 'withdraw'
    return look_at(desk.Request(g.clerk, wanted, voter, ids, number_in('seen'), before=before))


def number_in(name):
    """The number of an entry in a form."""
    text = request.form.get(name, '')
    return int(text) if text.isdecimal() and len(text) < 10 else abort(400)


def look_at(asked, is_asked_for=False):
    """The page on which a clerk checks a request, with what the desk will refuse; what is put back, on demand."""
    g.session.add(asked)
    is_shown = asked.before is None or is_asked_for
    return page('look', 'Check before you record', asked=asked, is_shown=is_shown,
                chosen=office.election.chosen(asked.ids), is_named=office.election.places_of(asked.ids) is not None,
                held=ballot_of(asked.voter) if asked.before is None else None)


@app.post('/record')
def record():
    """Sends what was looked at. A second sending gets the first one's answer."""
    asked = g.session.forms.get(request.form.get('form'))
    if asked is None or request.form.get('seen') != str(asked.seen):
        return say('Not sent', STALE, 409)
    return answer(asked)


def answer(asked):
    outcome = office.desk.ask(asked)
    words = office.end() if outcome.kind == 'entry' and outcome.value[2::3] == ('shut', 'done') else None
    return page('start', 'Answer', outcome=outcome, asked=asked, last=office.desk.last(asked.voter), words=words)


@app.post('/settle')
def settle():
    office.desk.settle(request.form.get('form'), g.clerk)
    return show(asked_voter()) if request.form.get('voter') else redirect('/', 303)


@app.get('/head')
def head(words='', status=200):
    counts, clerks = office.desk.counts.copy() + office.log.refused.copy(), office.door.clerks()
    told = [it for it in ANSWERS if it == 'done' or any(answer == it for _, answer in counts)]
    others = {it.clerk['number'] for it in list(office.sessions.values()) if not it.is_over(clerks)} - {0}
    return page('head', 'The head clerk', words=words, counts=counts, answers=told, others=others), status


@app.post('/again')
def again():
    office.desk.keep_up(is_after_fault=True)
    return redirect('/head', 303)


@app.post('/shut')
def shut():
    is_typed = request.form.get('word', '').strip() == 'shut'
    return answer(desk.Request(g.clerk, 'shut')) if is_typed else head('The desk is not shut. Type the word “shut”.', 400)


@app.get('/result')
@app.get('/result/<name>')
def result(name=None):
    """The report of the shut desk, or a file to be kept."""
    if not office.desk.shut:
        return say('No result yet', 'The desk is open.', 409)
    made = office.result()
    if name is None:
        return page('result', 'The result', report=made['report.txt'].decode())
    return Response(made.get(name) or abort(404), mimetype='application/octet-stream', headers={'Content-Disposition': f'attachment; filename="{name}"'})
