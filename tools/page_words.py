"""What a page says in a language, from a file of words alone: written from docs/formats.md, with no code of the program."""
import decimal, fractions, math, re

GROUPS = {'none': '', 'comma': ',', 'point': '.', 'apostrophe': '’', 'space': '\u202f'}
POINTS = {'point': '.', 'comma': ','}


def form(plural, number):
    """Which form of a noun goes with a number."""
    few = number % 10 in (2, 3, 4) and number % 100 not in (12, 13, 14)
    return {'same': 'many', 'english': 'one' if number == 1 else 'many', 'french': 'one' if number < 2 else 'many',
            'polish': 'one' if number == 1 else 'few' if few else 'many'}[plural]


class PageWords:
    """The words of a file, and the amounts of a currency, if there is one."""

    def __init__(self, path, currency=None):
        lines = [line.strip() for line in path.read_text(encoding='utf-8').splitlines()]
        rows = [line.split('=', 1) for line in lines if line and not line.startswith('#')]
        self.said, self.currency = {key.strip(): text.strip() for key, text in rows}, currency
        self.group, self.point = GROUPS[self.said['group']], POINTS[self.said['point']]

    def say(self, key, **places):
        return re.sub(r'\{(\w+)\}', lambda place: str(places[place[1]]) if place[1] in places else place[0], self.said[key])

    def noun(self, key, number):
        return self.said[f"{key}.{form(self.said['plural'], number)}"]

    def count(self, number):
        """A number that is no amount, as the page shows it."""
        return f'{int(number):,}'.replace(',', self.group)

    def amount(self, text, is_whole=False):
        """An amount of a table, as the page shows it."""
        units, hundredths = text.split('.')
        digits = self.count(units) + ('' if is_whole else self.point + hundredths)
        return digits if self.currency is None else self.say('amount', amount=digits, currency=self.currency)

    def shows(self, value, text, is_up=False):
        """Whether people who read this text read this value in it, and no other number. A fraction is shown in whole hundredths,
        rounded down, or up."""
        if '/' in value:
            hundredths = 100 * fractions.Fraction(value)
            whole = math.ceil(hundredths) if is_up else math.floor(hundredths)
            value = f'{whole // 100}.{whole % 100:02}'
        if self.currency is not None:
            text = text.replace(self.currency, '')
        digits = rf'[0-9]{{1,3}}(?:{re.escape(self.group)}[0-9]{{3}})*' if self.group else '[0-9]+'
        found = re.fullmatch(rf'[^0-9]*({digits})({re.escape(self.point)}[0-9][0-9])?[^0-9]*', text)
        if not found:
            return False
        units = found[1].replace(self.group, '')
        read = units + (found[2] or '').replace(self.point, '.')
        return decimal.Decimal(read) == decimal.Decimal(value) and ('.' in value or read == value)
