#!/usr/bin/python3
"""Keeps the file of the clerks: their names and numbers, and what scrypt makes of their passphrases.

usage: clerks.py add NAME           a new clerk, with the next number; the first one is the head clerk, 0
       clerks.py passphrase NAME    another passphrase for a clerk; a closed name can sign in again
       clerks.py close NAME         the clerk can no longer sign in; nobody else gets the number
       clerks.py list               the clerks with their numbers

The file is clerks.json here, or the one that --clerks CLERKS names. A passphrase is typed at the terminal, twice, and has
at least 12 characters.
"""
import argparse, getpass, hashlib, hmac, json, os, secrets, sys, unicodedata

sys.dont_write_bytecode = True
import disk

# How many characters a passphrase has at least and at most.
LEAST, MOST = 12, 1000


def hashed(passphrase, salt):
    """What scrypt makes of a passphrase, with 32 MiB and in about a tenth of a second."""
    text = unicodedata.normalize('NFC', passphrase[:MOST]).encode()
    return hashlib.scrypt(text, salt=bytes.fromhex(salt), n=2 ** 15, r=8, p=1, maxmem=2 ** 26, dklen=32).hex()


# Stands in for a name that nobody has, so that it takes the same time.
NOBODY = {'salt': secrets.token_hex(16), 'hash': secrets.token_hex(32)}


def is_right(clerk, passphrase):
    """Whether this is the clerk's passphrase."""
    kept = clerk if clerk and clerk['hash'] else NOBODY
    return hmac.compare_digest(hashed(passphrase, kept['salt']), kept['hash']) and kept is clerk


def load(path):
    """The clerks of a file: the one with number N stands at place N."""
    try:
        with open(path, encoding='utf-8') as file:
            if os.fstat(file.fileno()).st_mode & 0o077:
                raise ValueError(f'other accounts can read it: chmod 600 {path}')
            clerks = json.load(file)
        if [it['number'] for it in clerks] != list(range(len(clerks))) or not 0 < len(clerks) <= 64:
            raise ValueError('its numbers are not 0, 1, 2 and so on, up to 63')
        return clerks
    except (OSError, ValueError, KeyError, TypeError) as why:
        raise ValueError(f'{path} cannot be used as the file of clerks: {why}') from None


def folded(name):
    """A name as it is compared: capital and small letters are the same."""
    return unicodedata.normalize('NFC', name).casefold()


def named(clerks, name):
    """The clerk of this name, or None. If two names of an older file differ in capitals alone, these count."""
    return (next((it for it in clerks if it['name'] == name), None)
            or next((it for it in clerks if folded(it['name']) == folded(name)), None))


def save(path, clerks):
    """Puts a whole file in the place of the old one, for this account alone."""
    disk.put_over(path, json.dumps(clerks, indent=1, ensure_ascii=False).encode())


def typed(name):
    """A new passphrase, typed at the terminal."""
    if not sys.stdin.isatty():
        sys.exit('clerks.py: a passphrase is typed at a terminal')
    passphrase = getpass.getpass(f'Passphrase for {name}: ')
    if not LEAST <= len(passphrase) <= MOST:
        sys.exit(f'clerks.py: a passphrase has {LEAST} to {MOST} characters; nothing was changed')
    if getpass.getpass('Once more: ') != passphrase:
        sys.exit('clerks.py: the two differ; nothing was changed')
    salt = secrets.token_hex(16)
    return {'salt': salt, 'hash': hashed(passphrase, salt)}


def found(path, what, name):
    """The clerks of the file, and the one of this name, or a new one. Ends the program where this cannot be
    done."""
    clerks = load(path) if os.path.exists(path) or what != 'add' else []
    clerk = named(clerks, name) or {'number': len(clerks), 'name': name}
    is_new, names = clerk not in clerks, ', '.join(it['name'] for it in clerks)
    is_seen, is_head = name and name.isprintable(), what == 'close' and clerk['number'] == 0
    refusals = {'a name has at least one character, and only characters that can be seen': not is_seen,
                f"there is a clerk {clerk['name']} already; give the new one another name": what == 'add' and not is_new,
                f'there is no clerk {name}; the clerks are {names}': what != 'add' and is_new,
                'the head clerk cannot be closed: nobody else can shut the desk': is_head,
                'there can be 64 clerks at most': what == 'add' and len(clerks) == 64}
    for words in filter(refusals.get, refusals):
        sys.exit(f'clerks.py: {words}')
    return clerks, clerk


def main():
    parser = argparse.ArgumentParser(prog='clerks.py', usage=__doc__.split('usage: ')[1].split('\n\n')[0])
    parser.add_argument('--clerks', default='clerks.json')
    parser.add_argument('what', choices=['add', 'passphrase', 'close', 'list'])
    parser.add_argument('name', nargs='?')
    given = parser.parse_args()
    if (given.name is None) != (given.what == 'list'):
        parser.error('list takes no name' if given.name else f'{given.what} takes a name')
    if given.what == 'list':
        for it in load(given.clerks):
            more = ', the head clerk' * (it['number'] == 0) + ', closed' * (not it['hash'])
            print(f"{it['number']} {it['name']}{more}")
        return
    name = given.name.strip()
    before = found(given.clerks, given.what, name)[1]
    change = {'salt': '', 'hash': ''} if given.what == 'close' else typed(name)
    # A passphrase may take minutes to type, and another terminal may change the file meanwhile: so it is read
    # again, by one run of this program at a time.
    with disk.alone(os.path.dirname(given.clerks)):
        clerks, clerk = found(given.clerks, given.what, name)
        if given.what != 'add' and clerk != before:
            sys.exit(f'clerks.py: {name} was changed at another terminal meanwhile; nothing was changed here')
        save(given.clerks, clerks[:clerk['number']] + [clerk | change] + clerks[clerk['number'] + 1:])
    print(f"{clerk['name']} is clerk {clerk['number']}", end=', the head clerk' * (clerk['number'] == 0) + ', and can no longer sign in' * (given.what == 'close') + '\n')


if __name__ == '__main__':
    try:
        main()
    except ValueError as why:
        sys.exit(f'clerks.py: {why}')
