"""Sessions: who is signed in, and the forms that a clerk was shown."""
import secrets, time

# After how many seconds without a request, and at the latest, a session ends; how many forms it remembers.
IDLE, LONGEST, FORMS = 30 * 60, 12 * 3600, 100


class Session:
    """A clerk who is signed in."""

    def __init__(self, clerk):
        self.clerk, self.begun, self.used, self.forms = clerk, time.monotonic(), time.monotonic(), {}

    def is_over(self, clerks):
        """Whether it has ended by time, or since the clerk is closed or has another passphrase."""
        now = time.monotonic()
        return now - self.used > IDLE or now - self.begun > LONGEST or self.clerk not in clerks

    def add(self, asked):
        """Remembers what the clerk looks at now."""
        self.forms[asked.form] = asked
        if len(self.forms) > FORMS:
            del self.forms[next(iter(self.forms))]


class Sessions(dict):
    """The sessions, by what their cookies hold."""

    def begin(self, clerk, clerks):
        for key in [key for key, it in list(self.items()) if it.is_over(clerks)]:
            self.pop(key, None)
        key = secrets.token_urlsafe(32)
        self[key] = Session(clerk)
        return key

    def find(self, key, clerks):
        """The session of a cookie, if it goes on."""
        session = self.get(key)
        if session is None or session.is_over(clerks):
            return self.pop(key, None) and None
        session.used = time.monotonic()
        return session
