"""Tries the clerks' window in a browser: a day of three clerks by the keyboard alone, and each page looked at."""
import os, signal, threading, time

import browser
from browser_tab import Tab
from window_clerk import TOP, Window, passphrase_of, stop, until
from window_seen import MARKUP, NAMES, new_folder, see

LOOK = (TOP / 'tools/look_at_window.js').read_text()


def look_at(tab, name, pictures):
    """Looks at the page that a tab shows, at two widths, in light and dark colours, and for who uses a keyboard alone."""
    soft = {'a', 'bdi', 'button', 'caption', 'fieldset', 'form', 'h1', 'h2', 'header', 'input', 'label', 'legend', 'li', 'main', 'nav', 'p',
            'pre', 'section', 'span', 'strong', 'table', 'tbody', 'td', 'th', 'thead', 'tr', 'ul', 'div'}
    wanted = {'language': 'en', 'title': True, 'unlabelled': [], 'unnamed': [], 'twice': [], 'faint': [], 'edges': [], 'small': [],
              'wide': False, 'leaving': [], 'handlers': 0, 'landmarks': 1}
    for width, dark in ((1280, False), (1280, True), (360, False), (360, True)):
        tab.look(width, dark)
        seen = tab.ask(LOOK)
        at = f"{name} at {width} pixels, {'dark' if dark else 'light'}"
        for key, value in wanted.items():
            see(seen[key] == value, f'{at}: {key}', seen[key])
        see(seen['headings'][:1] == [1] and all(b <= a + 1 for a, b in zip(seen['headings'], seen['headings'][1:])), f'{at}: headings', seen['headings'])
        see(set(seen['elements']) <= soft, f'{at}: elements', set(seen['elements']) - soft)
        if pictures:
            tab.picture(pictures / f"{name}-{width}{'-dark' if dark else ''}.png")
    see(not tab.complaints(), f'{name}: the browser complains', tab.complaints())
    tab.look(1280)


def focusable(tab):
    """Goes once around a page by Tab: gives each element that has the focus, and whether one sees that."""
    found = []
    tab.run('document.querySelector("a, button, input:not([type=hidden])").focus()')
    for _ in range(60):
        here = tab.run("""(() => { const it = document.activeElement, style = getComputedStyle(it), size = it.getBoundingClientRect();
            return [it === document.body ? '' : it.outerHTML.slice(0, 120), style.outlineStyle !== 'none' && parseFloat(style.outlineWidth) >= 2,
              size.bottom > 0 && size.top < innerHeight]; })()""")
        if not here[0] or here in found:
            break
        found.append(here)
        tab.press('Tab')
    return found


def sign_in(tab, window, name):
    """Signs in by the keyboard alone."""
    tab.open(f'http://127.0.0.1:{window.port}/')
    tab.type(name)
    tab.press('Tab')
    tab.type(passphrase_of(name))
    tab.enter()


def try_pages(program, work, pictures):
    """A day of three clerks at once, by the keyboard alone, and each page looked at."""
    folder = new_folder(work, 'pages')
    with Window(program, folder).start() as window, browser.Browser(browser.installed()) as led:
        ann, ben, head = (Tab(led) for _ in range(3))
        ann.open(f'http://127.0.0.1:{window.port}/')
        look_at(ann, 'sign-in', pictures)
        ann.type('Ann')
        ann.press('Tab')
        ann.type('wrong')
        ann.enter()
        see('The name or the passphrase is wrong.' in ann.text(), 'a wrong passphrase in a browser', ann.text())
        look_at(ann, 'wrong', pictures)
        time.sleep(1)
        for tab, name in ((ann, 'Ann'), (ben, NAMES[2]), (head, 'Head')):
            sign_in(tab, window, name)
            see(f'{name}, clerk {NAMES.index(name)}' in tab.text(), f'{name} signs in', tab.text())
        look_at(ann, 'start', pictures)
        try_day(window, ann, ben, head, pictures)
        try_scanner(window, ben)
        try_escape(window, ben)
        try_figures(window, ben)
        try_keys(window, ben)
        for tab, name in ((ann, 'Ann'), (head, 'Head')):
            sign_in(tab, window, name)
            see('clerk' in tab.text() and 'no answer came' not in tab.text(), f'{name} goes on after the window was killed', tab.text())
        ben.said.clear()        # The browser complains where the window has ended.
        try_deaths_in_browser(window, ann, pictures)
        ann.open(f'http://127.0.0.1:{window.port}/nowhere')
        look_at(ann, 'nowhere', pictures)
        ben.press('Escape', loads=True)
        ben.type('late one')
        ben.enter()
        ben.type('12')
        ben.enter(loads=False)
        ben.enter()
        head.open(f'http://127.0.0.1:{window.port}/head')
        look_at(head, 'head', pictures)
        entries = len(window.entries())
        head.tab_to('word')
        head.type('shut')
        head.enter()
        see(f'Entry {entries + 1} of the journal: shut' in head.text(), 'the desk is shut', head.text())
        look_at(head, 'shut', pictures)
        ben.enter()
        see(f'You asked for this: cast, voter late one. The desk was shut by entry {entries + 1}.' in ben.text()
            and len(window.entries()) == entries + 1, 'a late ballot is not sent', ben.text())
        look_at(ben, 'late', pictures)
        head.open(f'http://127.0.0.1:{window.port}/result')
        see('elected;' in head.text() and 'digest;journal;sha256;' in head.text(), 'the report is shown', head.text())
        look_at(head, 'result', pictures)
        for tab in (ann, ben, head):
            see(not tab.fetched(window), 'nothing is fetched from elsewhere, and no address has an id', tab.fetched(window))
        window.end()
    see(window.audit('--require-shut').returncode == 0, 'the journal of the day is audited', window.audit())


def try_day(window, ann, ben, head, pictures):
    """Ballots by three clerks, a voter twice, markup, a ballot in between, a second sending; each answer in the journal."""
    entry = lambda: window.entries()[-1]
    ann.type('ann 1')
    ann.enter()
    see('This voter has no ballot.' in ann.text() and ann.focus() == 'search', 'a voter without a ballot', ann.text())
    stops = focusable(ann)
    see(len(stops) >= 8 and all(is_seen for _, is_seen, _ in stops), 'each stop of the Tab key is seen', stops)
    see(all(is_there for _, _, is_there in stops), 'and on the screen', stops)
    look_at(ann, 'voter', pictures)
    ann.run('document.getElementById("search").focus()')
    for text in ('12', 'RIDE', 'lowen'):
        ann.type(text)
        ann.enter(loads=False)
    see(ann.text('#count') == f'Ticked project {MARKUP}. Chosen so far: 12, 7, {MARKUP} (3 in all; 3 at most).',
        'three ticks by number and by name', ann.text('#count'))
    ann.type('b,c')
    ann.enter(loads=False)
    see('No projects match' in ann.text('#count'), 'an id with a comma cannot be ticked', ann.text('#count'))
    ann.press_button('Cast the ballot', loads=False)
    see(ann.text('h1') == 'Voter' and ann.focus() == 'search', 'what is still in the field is not passed over', ann.text('h1'), ann.focus())
    ann.run('document.getElementById("search").select()')
    ann.press('Backspace')
    see('No projects' not in ann.text('#count') and '3 in all' in ann.text('#count'), 'and is told no more once it is gone', ann.text('#count'))
    ann.type('99')
    ann.enter(loads=False)
    see('That is too many' in ann.text('#count'), 'the limit is counted', ann.text('#count'))
    look_at(ann, 'ticked', pictures)
    ann.run('document.getElementById("search").focus()')
    ann.type('99')
    ann.enter(loads=False)
    ann.enter()
    see('Library' in ann.text() and '3 projects' in ann.text() and not window.entries(), 'one look before anything is sent', ann.text())
    look_at(ann, 'look', pictures)
    # Meanwhile Ben sees the same voter, and casts first.
    ben.type('ann 1')
    ben.enter()
    ben.type('7')
    ben.enter(loads=False)
    ben.enter()
    see(ben.focus() == 'Record this', 'the button has the focus', ben.focus())
    ben.enter()
    see('Recorded.' in ben.text() and entry() == ['1', '2', 'cast', 'ann 1', '1', 'done'], "Ben's ballot is an entry", ben.text(), entry())
    look_at(ben, 'answer', pictures)
    ann.enter()
    see('Nothing was sent' in ann.text() and 'entry 1, cast' in ann.text() and len(window.entries()) == 1, 'nothing is sent over it', ann.text())
    look_at(ann, 'changed', pictures)
    see(ann.focus() == 'voter', 'the next id does not open the page of this voter', ann.focus())
    ann.press_button('Look again')
    see('This voter has a ballot: entry 1, taken by' in ann.text() and not ann.run('document.querySelectorAll(":checked").length'),
        'the second clerk is told that a ballot stands, and not what it holds', ann.text())
    look_at(ann, 'stands', pictures)
    # The next voter in two keystrokes, and markup in names and ids.
    ann.press('Escape', loads=True)
    see(ann.focus() == 'voter', 'Escape leads to the next voter', ann.focus())
    ann.type(MARKUP)
    ann.enter()
    see('it came with the file' in ann.text() and 'taken' not in ann.run('document.title'), 'a voter of markup', ann.text())
    ann.type('<script>')
    ann.enter(loads=False)
    ann.enter()
    ann.press_button('Change it')
    see('The new choices are ticked below.' in ann.text() and ann.run('document.querySelectorAll(":checked").length') == 1,
        'changing it begins with what was ticked', ann.text())
    ann.press('Escape')
    see('Press Escape once more' in ann.text('#count'), 'a tick is not lost by one key', ann.text('#count'))
    ann.press('Escape', loads=True)
    ann.type(MARKUP)
    ann.enter()
    ann.type('<script>')
    ann.enter(loads=False)
    ann.enter()
    look_at(ann, 'markup', pictures)
    ann.enter()
    see(entry() == ['2', '1', 'replace', MARKUP, '2', 'done'] and 'taken' not in ann.run('document.title'), 'markup is recorded as text', entry())
    see(not ann.run('document.querySelectorAll("main script, main img").length'), 'and is no element')
    # A voter twice, and withdrawn.
    see(ann.focus() == 'voter', 'the next voter can be typed at once', ann.focus())
    ann.type('ann 2')
    ann.enter()
    ann.enter()
    see('No project at all' in ann.text() and 'This ballot is empty.' in ann.text(), 'an empty ballot is told', ann.text())
    look_at(ann, 'empty', pictures)
    count = len(window.entries())
    ann.enter()
    see(ann.text('h1') == 'Voter' and len(window.entries()) == count, 'and is not recorded by one more Enter', ann.text('h1'))
    ann.enter()
    ann.press_button('Record this')
    ann.type('ann 2')
    ann.enter()
    see('This voter has a ballot: entry 3, taken by Ann' in ann.text() and 'No project at all' in ann.text(), 'a voter twice', ann.text())
    ann.press('Tab')
    ann.press('Tab')
    ann.enter()
    look_at(ann, 'withdraw', pictures)
    see(ann.focus() == 'Withdraw it' and 'The old ballot' in ann.text(), 'the button says what it does', ann.focus())
    ann.enter()
    see(entry() == ['4', '1', 'withdraw', 'ann 2', '', 'done'], 'a ballot is withdrawn by the keyboard', entry())
    # The answer stands in the voter's page: if that is loaded again, it shows the voter as it is now.
    ann.reload()
    see('it was withdrawn by entry 4' in ann.text() and len(window.entries()) == 4,
        'a page that is loaded again sends nothing', ann.text())
    # The head clerk looks, which is logged.
    head.type('ann 1')
    head.enter()
    head.run('[...document.querySelectorAll("button")].find(it => it.textContent.includes("logged")).focus()')
    head.enter()
    see('Park & ride <img' in head.text('.ballot') and window.log()[-1]['what'] == 'looked', 'the head clerk looks, and that is logged', head.text())
    head.press('Escape', loads=True)
    try_history(window, head, pictures)
    # With the mouse, and without the script.
    ben.call('Emulation.setScriptExecutionDisabled', value=True)
    ben.type('no script')
    ben.enter()
    for key in ('Tab', 'Tab', ' '):
        ben.press(key)
    ben.press('Tab')
    ben.press(' ')
    ben.press_button('Cast the ballot')
    ben.call('Emulation.setScriptExecutionDisabled', value=False)
    ben.press_button('Record this')
    see(entry()[:5] == ['5', '2', 'cast', 'no script', '0,1'], 'a ballot without the script', entry(), ben.text())


def try_history(window, head, pictures):
    """The head clerk sees a voter's history, goes as far as the check page for what stood, and back."""
    head.type(MARKUP)
    head.enter()
    see('0 A ballot came with the file.' in head.text('table'), 'the history of a voter', head.text('table'))
    look_at(head, 'history', pictures)
    head.press_button('Put back what stood before entry 2')
    see('the ballot that came with the file' in head.text() and head.focus() == 'Put it back'
        and not head.text('.ballot'),
        'what is put back is named, and the button has the focus', head.text(), head.focus())
    look_at(head, 'back', pictures)
    head.press_button('Show this ballot (this is logged)')
    see('Library' in head.text('.ballot') and window.log()[-1]['what'] == 'looked', 'and shown on demand',
        head.text())
    look_at(head, 'back-shown', pictures)
    head.press_button('Back')
    see(head.text('h1') == 'Voter' and len(window.entries()) == 4, 'the way back sends nothing',
        head.text('h1'))
    head.press('Escape', loads=True)


def try_keys(window, tab):
    """Ids of projects one after the other; an Enter that is held down; a window that has ended."""
    count = len(window.entries())
    chosen = lambda: tab.run('[...document.querySelectorAll(":checked")].map(it => it.value).join()')
    tab.open(f'http://127.0.0.1:{window.port}/')
    tab.type('listed')
    tab.enter()
    for text, words in (('12 8', 'No project has the last of these ids'), ('13 7', 'No projects match'),
                        ('12 b,c', 'No projects match')):
        tab.type(text)
        tab.enter(loads=False)
        see(chosen() == '' and words in tab.text('#count'), f'{text} ticks nothing', chosen(),
            tab.text('#count'))
        tab.run('document.getElementById("search").select()')
        tab.press('Backspace')
    tab.type('99, 12 99')
    pages = tab.pages
    tab.enter()
    see('2 projects.' in tab.text() and 'Library' in tab.text() and tab.focus() == 'Record this'
        and len(window.entries()) == count,
        'ids one after the other lead to the check', tab.text(), tab.focus())
    tab.press('Enter', autoRepeat=True)
    time.sleep(0.5)
    see(tab.focus() == 'Record this' and len(window.entries()) == count,
        'an Enter that is held down records nothing', tab.focus())
    tab.enter()
    see(window.entries()[-1][2:] == ['cast', 'listed', '0,4', 'done'] and tab.pages == pages,
        'and the voter’s page answers', window.entries()[-1])
    tab.type('nobody answers')
    tab.enter()
    tab.type('7')
    tab.enter(loads=False)
    stop(window.child.pid)      # No connection is taken any more, and the one that is sent is reset.
    threading.Timer(0.5, window.child.kill).start()
    tab.enter()
    see('The window did not answer.' in tab.text() and chosen() == '7',
        'a window that has ended is told, and no tick is lost', tab.text())
    window.child.communicate()
    window.start()
    sign_in(tab, window, NAMES[2])


def try_figures(window, tab):
    """Twenty ballots by the keyboard: how many pages are loaded, and how many keys pressed."""
    count, sets = len(window.entries()), ('12 7 99', '99 12', '7 99 12')
    tab.open(f'http://127.0.0.1:{window.port}/')
    tab.pages = tab.keys = 0
    for number in range(20):
        tab.type(f'w{number:04}')
        tab.enter()
        tab.type(sets[number % 3])
        tab.enter()
        tab.enter()
    places = {'12 7 99': '0,1,4', '99 12': '0,4', '7 99 12': '0,1,4'}
    wanted = [['2', 'cast', f'w{number:04}', places[sets[number % 3]], 'done'] for number in range(20)]
    see([row[1:] for row in window.entries()[count:]] == wanted, 'twenty ballots stand',
        window.entries()[count:])
    see(tab.pages <= 30 and tab.keys <= 300, 'twenty ballots are 30 pages and 300 keys at most', tab.pages,
        tab.keys)
    print(f'try_window: pages: twenty ballots by the keyboard: {tab.pages} pages loaded, {tab.keys} keys pressed')


def try_scanner(window, tab):
    """An id that is scanned on the check page records nothing; Enter by hand, 2 seconds later, does."""
    count = len(window.entries())
    tab.open(f'http://127.0.0.1:{window.port}/')
    tab.type('scanned')
    tab.enter()
    # On the voter's page a scanned id ticks nothing, though a project has it in its name; one more Enter, or a hand, does.
    chosen = lambda: tab.run('[...document.querySelectorAll(":checked")].map(it => it.value).join()')
    tab.scan('Libr')
    see(chosen() == '' and 'as fast as from a scanner: nothing was ticked' in tab.text('#count'), 'a scanned id ticks nothing',
        chosen(), tab.text('#count'))
    time.sleep(1)
    tab.enter(loads=False)
    see(chosen() == '12', 'one more Enter means it', chosen(), tab.text('#count'))
    for wanted in ('', '12'):
        tab.scan('12', 0.15)
        see(chosen() == wanted, 'a number by hand is no scan', chosen(), tab.text('#count'))
    tab.enter()
    tab.scan('v 8')
    time.sleep(2)
    see('Check before you record' in tab.text() and tab.focus() == 'Record this' and len(window.entries()) == count,
        'a scanned id records nothing', tab.text(), tab.focus())
    tab.enter()
    see(f'Entry {count + 1} of the journal: cast, voter scanned' in tab.text(), 'Enter by hand does', tab.text())


def try_escape(window, tab):
    """Escape leads to the next voter from each page, and is not the browser's own, which would stop that."""
    watch = "addEventListener('keydown', it => sessionStorage.setItem('escape', it.key + it.defaultPrevented))"
    for number in range(6):
        tab.open(f'http://127.0.0.1:{window.port}/')
        tab.type(f'escape {number}')
        tab.enter()
        if number % 2:
            tab.enter()
        tab.run(watch)
        tab.press('Escape', loads=True)
        here = tab.focus(), tab.text('h1')
        see(here == ('voter', 'Next voter'), 'Escape leads to the next voter, each time', number, here)
        see(tab.run("sessionStorage.getItem('escape')") == 'Escapetrue', "it is not the browser's own", number)
        tab.run("sessionStorage.removeItem('escape')")


def try_deaths_in_browser(window, ann, pictures):
    """serve is killed with a request under way, and the clerk goes on."""
    ann.open(f'http://127.0.0.1:{window.port}/')
    ann.type('ann 3')
    ann.enter()
    ann.type('12')
    ann.enter(loads=False)
    ann.enter()
    number = window.serve_id()
    stop(number)
    see(not ann.text('.waits'), 'nothing is said of waiting before it waits')
    ann.enter(loads=False)
    words = 'Waiting for the answer, a minute at most. Leave this page open; nothing has to be sent again.'
    see(until(lambda: ann.text('.waits[role=status]') == words, 50) and ann.ask('!document.querySelector("[inert] .waits")'),
        'a page that waits says so, where it can be read aloud', ann.text())
    look_at(ann, 'waiting', pictures)
    window.await_asked('ann 3')
    ann.loaded(lambda: os.kill(number, signal.SIGKILL))
    see(not ann.text('.waits'), 'and no more once the answer is there', ann.text())
    see('It is not known whether this was recorded.' in ann.text(), 'not known', ann.text())
    look_at(ann, 'unknown', pictures)
    see(ann.focus() == 'voter', 'here neither', ann.focus())
    ann.press_button('Look again')
    see('It was not recorded. If it is still wanted, ask again.' in ann.text(), 'it is told what came of it', ann.text())
    look_at(ann, 'asked', pictures)
    ann.run('document.getElementById("search").focus()')
    ann.type('12')
    ann.enter(loads=False)
    ann.enter()
    ann.enter()
    see(window.entries()[-1][2:4] == ['cast', 'ann 3'] and 'no answer came' not in ann.text(), 'and asked once more, which settles it', ann.text())
