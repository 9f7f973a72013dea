"""Who may sign in: one passphrase is tried at a time, and wrong ones delay the next try, more each time."""
import collections, contextlib, hashlib, hmac, os, threading, time

import clerks

# The longest delay, how long a wrong passphrase is remembered (both in seconds), and how many of an address are free.
LONGEST, MEMORY, FREE = 8, 1800, 4
# How many tries may wait for their turn: of all addresses, and of one address or browser. Each takes a tenth
# of a second.
PLACES, SHARE = 16, 8


class Door:
    """Tells who signs in. What delays a clerk are wrong tries at this name from the same address, and at any
    name from there (the head clerk: at this name alone); or, in a browser in which the clerk has signed in
    before, wrong tries in that browser alone. A delay is short, so nobody can lock out a clerk who has the
    right passphrase."""

    def __init__(self, path):
        self.path, self.stamp, self.wrong, self.waiting = path, None, {}, collections.Counter()
        # Whose turn it is; the line of all but those whose browser a clerk has used; who counts them.
        self.turn, self.line, self.guard = threading.Lock(), threading.Lock(), threading.Lock()
        self.clerks()

    def clerks(self):
        """The clerks of the file as it is now."""
        found = os.stat(self.path)
        if (found.st_ino, found.st_mtime_ns, found.st_mode) != self.stamp:
            self.known, self.stamp = clerks.load(self.path), (found.st_ino, found.st_mtime_ns, found.st_mode)
        return self.known

    def name_of(self, number):
        return self.known[number]['name'] if number < len(self.known) else 'somebody'

    def mark_of(self, clerk, nonce):
        """What a browser keeps once a clerk has signed in there. Nobody else can make it."""
        return f"{nonce}.{hmac.new(clerk['hash'].encode(), nonce.encode(), hashlib.sha256).hexdigest()}"

    def delay(self, keys):
        """How many seconds the next try has to wait, if any."""
        return max(self.wrong.get(key, (0, 0))[1] - time.monotonic() for key in keys)

    def note_wrong(self, keys):
        now = time.monotonic()
        self.wrong = {key: it for key, it in self.wrong.items() if it[1] + MEMORY > now}
        for key in keys:
            count = self.wrong.get(key, (0, 0))[0] + 1
            power = count - 1 - FREE * (key[0] == 'address')
            self.wrong[key] = count, now + (min(2 ** min(power, 20), LONGEST) if power >= 0 else 0)

    def judge(self, name, passphrase, address, mark_in):
        """The clerk and 0; or None and the seconds to wait, 0 where name or passphrase is wrong. `mark_in`
        gives the mark that the browser keeps for a clerk's number."""
        clerk = clerks.named(self.clerks(), name)
        mark = mark_in(clerk['number']) if clerk and clerk['hash'] else ''
        right = self.mark_of(clerk, mark.split('.')[0]) if mark else ''
        is_marked = bool(mark) and hmac.compare_digest(mark.encode(), right.encode())
        keys = [('name', hash(clerks.folded(name)), address)] + [('address', address)] * (clerk is not self.known[0])
        keys = [('browser', mark)] if is_marked else keys
        if self.delay(keys) > 0:
            return None, self.delay(keys)
        with self.guard:
            if self.waiting[keys[-1]] >= SHARE or not is_marked and self.waiting.total() >= PLACES:
                return None, 1
            self.waiting[keys[-1]] += 1
        try:
            with contextlib.nullcontext() if is_marked else self.line, self.turn:
                return self.judge_now(clerk, passphrase, keys)
        finally:
            with self.guard:
                self.waiting += collections.Counter({keys[-1]: -1})     # What is not above 0 goes.

    def judge_now(self, clerk, passphrase, keys):
        if self.delay(keys) > 0:
            return None, self.delay(keys)
        if clerks.is_right(clerk, passphrase):
            self.wrong.pop(keys[0], None)
            return clerk, 0
        self.note_wrong(keys)
        return None, 0
