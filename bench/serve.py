#!/usr/bin/env python3
"""Measures rows a second of `pb_app serve` where each answer is awaited, and where rows are piped, beside SQLite.

serve.py PROGRAM FOLDER ROWS ROUNDS

The folder has desk.pb, and gets the journals and the databases: all are on its disk. SQLite is the one that Python has; it
gets a row of the same fields by one INSERT a transaction with synchronous=FULL, in both journal modes, within
the script's own process, where `serve` is asked by a pipe. A round has so many rows of each, one after the other; of
the rounds the median counts. 50,000 rows are piped in each round.
"""
import os, pathlib, sqlite3, statistics, subprocess, sys, time

PIPED = 50_000


def row_of(number):
    """A request, as bench/make_script.py makes them."""
    return b'%d;replace;%d;%d,%d\n' % (number % 4, number * 7919 % 100_000 + 1, number % 10, 10 + number % 7)


def served(program, folder, rows, is_awaited):
    """The seconds that a run takes for so many rows, from the first row to the last answer."""
    journal = folder / 'serve.journal'
    journal.unlink(missing_ok=True)
    child = subprocess.Popen([program, 'serve', folder / 'desk.pb', journal], stdin=subprocess.PIPE,
                             stdout=subprocess.PIPE, stderr=subprocess.DEVNULL, bufsize=0)
    answers = child.stdout.fileno()
    if not os.read(answers, 4096).startswith(b'entries;0;'):
        sys.exit('the desk does not open')
    started = time.monotonic()
    if is_awaited:
        for number in range(rows):
            child.stdin.write(row_of(number))
            if not os.read(answers, 4096).endswith(b';done\n'):
                sys.exit('a row is not answered')
    else:
        (folder / 'serve.rows').write_bytes(b''.join(row_of(number) for number in range(rows)))
        started = time.monotonic()
        sent = subprocess.Popen(['cat', folder / 'serve.rows'], stdout=child.stdin)
        left = rows
        while left:
            left -= os.read(answers, 1 << 16).count(b'\n')
        sent.wait()
    seconds = time.monotonic() - started
    child.stdin.close()
    child.stdout.close()
    if child.wait():
        sys.exit('a run has failed')
    return seconds


def inserted(folder, rows, mode):
    """The seconds that SQLite takes for so many rows."""
    for name in folder.glob('serve.db*'):
        name.unlink()
    database = sqlite3.connect(folder / 'serve.db', isolation_level=None)
    database.execute(f'PRAGMA journal_mode={mode}')
    database.execute('PRAGMA synchronous=FULL')
    database.execute('CREATE TABLE journal(number INTEGER PRIMARY KEY, clerk, request, voter, places, answer)')
    started = time.monotonic()
    for number in range(rows):
        clerk, request, voter, places = row_of(number)[:-1].decode().split(';')
        database.execute('INSERT INTO journal(clerk, request, voter, places, answer) VALUES (?, ?, ?, ?, ?)',
                         (int(clerk), request, voter, places, 'done'))
    seconds = time.monotonic() - started
    database.close()
    return seconds


def main():
    program, folder, rows, rounds = sys.argv[1], pathlib.Path(sys.argv[2]), int(sys.argv[3]), int(sys.argv[4])
    kinds = {
        'serve, each answer awaited': lambda: rows / served(program, folder, rows, True),
        f'SQLite {sqlite3.sqlite_version}, rollback journal': lambda: rows / inserted(folder, rows, 'DELETE'),
        f'SQLite {sqlite3.sqlite_version}, write-ahead log': lambda: rows / inserted(folder, rows, 'WAL'),
        'serve, piped': lambda: PIPED / served(program, folder, PIPED, False),
    }
    rates = {name: [] for name in kinds}
    print(f'{os.cpu_count()} processors, load {os.getloadavg()[0]:.1f}, {rows} rows in each of {rounds} rounds')
    for _ in range(rounds):
        for name, measure in kinds.items():
            rates[name].append(measure())
    median = {name: statistics.median(found) for name, found in rates.items()}
    awaited, rollback, ahead, piped = median.values()
    for name, rate in median.items():
        print(f'  {name}: {rate:,.0f} rows a second ({min(rates[name]):,.0f} to {max(rates[name]):,.0f})')
    print(f'  awaited: {awaited / rollback:.2f} times as fast as the rollback journal, {ahead / awaited:.2f} times as long as the '
          f'write-ahead log')
    print(f'  piped: {piped / rollback:.0f} and {piped / ahead:.0f} times as fast')


main()
