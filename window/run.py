#!/usr/bin/python3
"""The clerks' window: web pages on which clerks cast, replace and withdraw ballots. README.md says how an office uses it."""
import argparse, errno, ipaddress, os, shlex, shutil, signal, socket, sys, threading

sys.dont_write_bytecode = True
import copies, desk, disk, election, log, overnight, roll, sessions, settings, sign_in
try:
    # A copy is made and put back without these.
    if not {'--copy', '--restore'} & {it.split('=')[0] for it in sys.argv}:
        import pages, server
except ImportError as why:
    sys.exit(f"run.py: {why}. Install Debian's python3-flask and python3-cheroot, and run it by /usr/bin/python3")

OPTIONS = {
    '--clerks': dict(metavar='CLERKS', help='the file that clerks.py makes; the window needs it'),
    '--listen': dict(metavar='ADDRESS:PORT', default='127.0.0.1:8080', help='where the window listens; 127.0.0.1:8080 if not given'),
    '--name': dict(metavar='HOST', action='append', default=[], help='a name that clerks type into the browser; may be given several times'),
    '--cert': dict(metavar='PEM', help='the certificate for TLS'),
    '--key': dict(metavar='PEM', help='its key'),
    '--backup': dict(metavar='FOLDER', help='makes whole copies there, also in the evening and at a shut'),
    '--backup-every': dict(metavar='MINUTES', type=int, default=60, help='how many minutes; 60 if not given'),
    '--copy': dict(action='store_true', help='makes a copy in the folder of --backup now'),
    '--restore': dict(metavar='COPY', help='puts an office back from a copy, into this empty folder'),
    '--roll': dict(metavar='ROLL', help='takes requests only for the voters in this file'),
    '--other-file': dict(action='store_true', help='goes on with a FILE that was corrected, as with pb_app serve'),
    '--min': dict(metavar='N', type=int, default=0, help='the smallest number of projects that a new ballot may name'),
    '--keep-file-ballots': dict(action='store_true', default=None, help='takes no request for a voter whom FILE lists'),
    '--title': dict(metavar='TEXT', help='the title of the pages, and of the page of the result'),
    '--language': dict(metavar='WORDS', help='the words of the page of the result, such as words/de.words'),
    '--currency': dict(metavar='TEXT', help='the currency on the page of the result'),
    '--count': dict(metavar='OPTIONS', default='', help='the options of the count in one word, such as --count="--measure cost"'),
    '--program': dict(metavar='PATH', default='pb_app', help='where pb_app is, if it is not on the PATH'),
}


def arguments():
    """What the command line asks for, or the file of settings that it names."""
    usage = ['run.py FILE JOURNAL --clerks CLERKS [OPTION..]', 'run.py OFFICE.toml', 'run.py --restore COPY']
    parser = argparse.ArgumentParser(prog='run.py', usage='\n       '.join(usage),
                                     description="The clerks' window: web pages on which clerks take ballots.")
    parser.add_argument('file', metavar='FILE', nargs='?', help='the election; or alone, a file of settings, OFFICE.toml')
    parser.add_argument('journal', metavar='JOURNAL', nargs='?', help='the journal of its desk; made if it does not exist')
    for option, words in OPTIONS.items():
        parser.add_argument(option, **words)
    given, path, known = parser.parse_args(), None, None
    if given.file and not given.journal:
        path, more = given.file, [it for it in sys.argv[1:] if it != given.file]
        try:
            known = settings.load(path)
            options, names = settings.arguments_of(path, dict(known))
            known['the command line'] = [it for it in more if it not in ('--copy', '--other-file')]
        except ValueError as why:
            parser.exit(2, f'run.py: {why}\n')
        given = parser.parse_args([*options, *more, '--', *names])
    # What is kept of options alone: of a path its name, so that it matters not where it begins.
    kept = {it: vars(given)[it] for it in ('min', 'title', 'currency', 'count', 'keep_file_ballots')}
    kept |= {it: vars(given)[it] and os.path.basename(os.path.abspath(vars(given)[it]))
             for it in ('clerks', 'roll', 'backup', 'language')}
    given.settings, given.known = path, known or {f'--{it}'.replace('_', '-'): value for it, value in kept.items()}
    if not given.restore and not given.file:
        parser.error('name FILE and JOURNAL, or a file of settings, or --restore COPY')
    if not given.restore and not given.clerks and not given.copy:
        parser.error('--clerks: name the file that clerks.py makes')
    if given.backup_every < 1:
        parser.error('--backup-every takes a number of minutes, 1 or more')
    host, _, port = given.listen.rpartition(':')
    try:
        address, given.address = ipaddress.ip_address(host.strip('[]')), (host.strip('[]'), int(port))
        if given.address[1] not in range(65536):
            raise ValueError
    except ValueError:
        parser.error('--listen takes an address and a port, such as 127.0.0.1:8080')
    if bool(given.cert) != bool(given.key) or not (given.cert or address.is_loopback):
        parser.error('--cert and --key are needed, together, on every address but loopback')
    if address.is_unspecified and not given.name:
        parser.error('give --name: the name that clerks type to reach the window')
    if given.backup and not os.access(given.backup, os.W_OK | os.X_OK):
        parser.error(f'--backup: {given.backup} is not a folder in which you may write. Is it on a stick? Put that in')
    if given.copy and not given.backup:
        parser.error('--copy needs --backup: the folder for the copy')
    given.scheme = 'https' if given.cert else 'http'
    names = given.name + [host] + ['localhost'] * address.is_loopback
    given.hosts = [f'{name}:{port}' for name in names] + names * (int(port) == (443 if given.cert else 80))
    return given


class Day:
    """What the pages use: the desk and all that belongs to it."""

    def __init__(self, given):
        self.given, self.scheme, self.port, self.hosts = given, given.scheme, given.address[1], given.hosts
        self.door, self.sessions, self.ending = sign_in.Door(given.clerks), sessions.Sessions(), threading.Lock()
        self.election = election.Election(given.program, given.file, given.min)
        self.log = log.Log(f'{given.journal}.log')
        roll.clear_folders()
        self.roll = roll.Roll(given.roll) if given.roll else None
        self.keeper = overnight.Keeper(given, self.log)
        self.keeper.compare(self.door.known[0], self.election)
        serve = [given.program, 'serve', '--by-id', f'--min={given.min}', *['--other-file'] * given.other_file,
                 *(['--roll', self.roll.path] if self.roll else []), *['--keep-file-ballots'] * bool(given.keep_file_ballots)]
        self.desk = desk.Desk(serve, given.file, given.journal, self.log, self.election)
        self.desk.start()
        self.keeper.try_to_keep(is_copied=False)
        if self.desk.shut:
            self.desk.end()
        threading.Thread(target=self.keeper.watch, daemon=True).start()

    def end(self, is_over=False):
        """Ends the child in order, and makes the copy of the evening. Answers in words what failed."""
        with self.ending:
            self.desk.end()
            if is_over:
                self.keeper.is_over.set()
            self.log.tell_omitted(is_last=True)
            try:
                kept = copies.kept_beside(self.given.journal)
                digest = None if kept else disk.digest_in(self.given.journal)
                entries = self.desk.newest.number
                self.log.write('ended', entries=entries, digest=digest)
                if kept:
                    print(f"\nWrite nothing down: {self.given.journal} is not the desk's. {kept}", flush=True)
                elif digest:
                    print(f'\nEntries: {entries}, sha256 {digest}: write both down', flush=True)
                if whole := self.keeper.keep(is_evening=True):
                    print(f'Copied to {whole}', flush=True)
            except (OSError, ValueError, election.Fault) as why:
                why = disk.words_of(why)
                self.keeper.tell(f'No copy was made: {why}')
                return (f'No copy was made: {why}. Copy the folder by hand. If {self.given.journal} was moved, look for '
                        f'{self.given.journal}.kept.')

    def result(self):
        """The report of the shut desk with its digests, and the page of the result, by the names of their files."""
        given, rule = self.given, shlex.split(self.given.count)
        shows = {'--title': given.title, '--words': given.language, '--currency': given.currency}
        shows = [word for option, value in shows.items() if value for word in (option, value)]
        report = [given.program, 'audit', given.file, given.journal, '--digests', '--require-shut', *rule]
        shown = [given.program, 'page', given.file, '--journal', given.journal, *shows, *rule]
        return {'report.txt': election.told_by(*report), 'result.html': election.told_by(*shown)}


def tls_of(given):
    """The TLS of the window, if it has a certificate. A Fault where this, its key or the address cannot be used."""
    host, port = given.address
    try:
        socket.create_server(given.address, family=socket.AF_INET6 if ':' in host else socket.AF_INET).close()
    except OSError as why:
        more = {errno.EADDRINUSE: f'another program has port {port}: end it, or choose another port',
                errno.EADDRNOTAVAIL: f'this machine does not have the address {host}',
                errno.EACCES: f'port {port} is for root alone: choose one above 1023'}
        raise election.Fault(f'--listen {given.listen}: {more.get(why.errno, why.strerror)}') from None
    try:
        return server.Tls(given.cert, given.key) if given.cert else None
    except (OSError, ValueError) as why:
        words = f'the certificate {given.cert} with the key {given.key} cannot be used: {disk.words_of(why)}'
        raise election.Fault(words) from None


def opened(given):
    """The day and its TLS. A start that fails ends with its words, and leaves nothing in the temporary folder."""
    def end_early(*_):
        raise election.Fault('it was ended before the window was open')
    for number in (signal.SIGINT, signal.SIGTERM, signal.SIGHUP):
        signal.signal(number, end_early)
    if not shutil.which(given.program):
        raise election.Fault(f'--program: {given.program} is not a program that can be run')
    if given.restore:
        print(*copies.restore(given.restore, given.program), sep='\n')
        return print('Never open the desk of the other machine, or of the former folder, again. Start the '
                     'window here, as each morning.')
    if given.copy:
        keeper = overnight.Keeper(given, None)
        keeper.warn(whole := keeper.copy_beside())
        return print(f'Copied to {whole}')
    tls = tls_of(given)
    return Day(given), tls


def main():
    given = arguments()
    os.umask(0o077)
    try:
        made = opened(given)
    except (election.Fault, OSError, ValueError) as why:
        sys.exit(f'run.py: {disk.words_of(why)}')
    if not made:
        return
    pages.office, tls = made
    day, failure = pages.office, None
    if day.election.unfit:
        print(day.election.warning(), flush=True)
    changed = [it for it in day.desk.history if it in day.election.votes and day.desk.standing(it)]
    if changed and given.keep_file_ballots:
        print(f'Voters of the file whose ballots were changed before, and stay so: {len(changed)}.', flush=True)
    web, (ended, end) = server.Server(given.address, pages.app, day.log), os.pipe()
    web.ssl_adapter = tls
    # Python itself writes to this pipe, whichever thread gets the signal, and whatever the main thread does.
    os.set_blocking(end, False)
    signal.set_wakeup_fd(end)
    for number in (signal.SIGINT, signal.SIGTERM, signal.SIGHUP):
        signal.signal(number, lambda *_: None)
    try:
        web.prepare()
        where, count = f'{given.scheme}://{given.hosts[0]}/', day.desk.newest.number
        print(f'The window is open at {where} and Ctrl-C ends the day. Entries in the journal: {count}.', flush=True)
        threading.Thread(target=web.serve, daemon=True).start()
        os.read(ended, 1)
        web.stop()
    except OSError as why:
        failure = f'run.py: {disk.words_of(why)}'
        print(failure, file=sys.stderr)
    sys.exit(day.end(is_over=True) or (1 if failure else None))


if __name__ == '__main__':
    main()
