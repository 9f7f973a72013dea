#!/usr/bin/env python3
"""Counts a small `.pb` file as plainly as docs/counting.md says it, and prints the report, or the fault line.

It was written from the docs to check the reports of conformance/, and shares no code with the program or with
tools/recount.py. It saves no work: it makes each raise's run, and searches each price by its definition. It
judges no limits of records, projects and voters.
"""
import collections, csv, fractions, hashlib, io, re, sys

sys.dont_write_bytecode = True
import arguments
from third_file import Election, Refused

# Of the completions two raise the shares, and two fill up; by most votes all is filled up.
MEASURES, COMPLETIONS = ('votes', 'cost'), ('none', 'add1', 'utilitarian', 'add1u')
MOST_VOTES = 'most-votes'

# What is counted by: a measure, a completion, a step in hundredths, how many raises there may be, what breaks ties
# (names of keys and perhaps a lot), and how finely money is divided.
Rule = collections.namedtuple('Rule', 'measure completion step most ties money')
MONEY = HUNDREDTHS, FINE = 'hundredths', 'fine'
SEED = '[A-Za-z0-9-]{1,64}'


def ties(text):
    """A rule for ties, as it is given."""
    if not re.fullmatch(f'file|(votes|cost|votes,cost|cost,votes)(,lot:{SEED})?|lot:{SEED}', text):
        raise ValueError(text)
    return text


def in_order(election, rule):
    """The projects as ties are broken: `min` and `sorted` keep the order of equals."""
    keys, _, seed = rule.ties.partition('lot:')
    order = list(election.costs)
    if seed:
        order.sort(key=lambda it: hashlib.sha256(f'{seed}\n{it}'.encode()).digest())
    for key in reversed(keys.split(',')):
        if key == 'cost':
            order.sort(key=lambda it: election.costs[it])
        elif key == 'votes':
            order.sort(key=lambda it: -len(election.supporters[it]))
    return order


def least_price(cost, rests):
    """The least price at which these rests cover the cost, or None where they never do."""
    if sum(rests) < cost:
        return None
    low, high = 0, max(rests)
    while low < high:
        middle = (low + high) // 2
        low, high = (low, middle) if sum(min(rest, middle) for rest in rests) >= cost else (middle + 1, high)
    return low


def exact_price(cost, rests):
    """What each pays where these rests come to the cost exactly, those that are less as a whole; None where they don't."""
    rests = sorted(rests)
    for poor, rest in enumerate(rests):
        price = fractions.Fraction(cost - sum(rests[:poor]), len(rests) - poor)
        if price <= rest:
            return price
    return None


def parts_of(election, rule):
    """Into how many parts a hundredth is divided. All shares, prices and payments are in parts."""
    return max(1, 10_000 * len(election.ballots)) if rule.money == FINE else 1


def opening_share(election, rule):
    voters = len(election.ballots)
    return parts_of(election, rule) * election.budget // voters if voters else 0


def refuse_too_fine(election, rule):
    """Refuses a count of fine money whose largest share, or a cost, is no number of 64 bits."""
    parts = parts_of(election, rule)
    raised = parts * rule.step * rule.most if rule.completion in ('add1', 'add1u') else 0
    largest = [opening_share(election, rule) + raised, *(parts * cost for cost in election.costs.values())]
    if rule.money == FINE and max(largest) >= 2**64:
        raise Refused('fault;count;6;TooFine', 1)


def run(election, rule, share):
    """What the rounds elect at a share, in their order: each project's price, and what it collected."""
    elected, rests = {}, dict.fromkeys(election.ballots, share)
    parts, price_of = parts_of(election, rule), exact_price if rule.money == FINE else least_price

    def order(priced):
        project, price = priced
        return fractions.Fraction(price, election.costs[project]) if rule.measure == 'cost' else price

    while True:
        prices = {it: price_of(parts * election.costs[it], [rests[voter] for voter in election.supporters[it]])
                  for it in in_order(election, rule) if it not in elected}
        prices = {project: price for project, price in prices.items() if price is not None}
        if not prices:
            return elected
        # Of equals `min` gives the first.
        best, price = min(prices.items(), key=order)
        # A price that is no whole number of parts is paid rounded down.
        paid = {voter: min(rests[voter], price // 1) for voter in election.supporters[best]}
        rests.update({voter: rests[voter] - payment for voter, payment in paid.items()})
        elected[best] = price, sum(paid.values())


def decided(election, rule):
    """How often the share is raised, the share, and what is elected there."""
    answer = None
    for raises in range(rule.most + 1):
        share = opening_share(election, rule) + raises * parts_of(election, rule) * rule.step
        elected = run(election, rule, share)
        left = election.budget - election.cost_of(elected)
        if left < 0:
            return answer
        answer = raises, share, elected
        if rule.completion in ('none', 'utilitarian') or not election.fitting(elected, left):
            return answer
    raise Refused('fault;count;4;RaisesSpent', 1)


def filled_up(election, rule, elected):
    """What most votes first adds to the elected, in its order."""
    added, left = [], election.budget - election.cost_of(elected)
    order = in_order(election, rule)
    while fitting := election.fitting([*elected, *added], left):
        added.append(min(fitting, key=lambda it: (-len(election.supporters[it]), election.costs[it], order.index(it))))
        left -= election.costs[added[-1]]
    return added


def report(election, rule):
    """The rows of the report."""
    if not 1 <= rule.step <= 10**9:
        raise Refused('fault;count;2;StepRange', 2)
    if not 0 <= rule.most <= 10**6:
        raise Refused('fault;count;3;RaisesRange', 2)
    refuse_too_fine(election, rule)
    raises, share, elected = (0, 0, {}) if rule.completion == MOST_VOTES else decided(election, rule)
    added = filled_up(election, rule, elected) if rule.completion in ('utilitarian', 'add1u', MOST_VOTES) else []
    parts = parts_of(election, rule)
    yield 'budget', money(election.budget)
    yield 'voters', len(election.ballots)
    yield 'share', money(share, parts)
    yield 'raises', raises
    for project, (price, _) in elected.items():
        yield 'elected', project, money(election.costs[project]), money(price, parts)
    for project in added:
        yield 'added', project, money(election.costs[project]), len(election.supporters[project])
    yield 'spent', money(election.cost_of([*elected, *added]))
    more = sum(collected for _, collected in elected.values()) - parts * election.cost_of(elected)
    yield ('uncovered', money(-more, parts)) if rule.money == FINE else ('surplus', money(more))


def money(amount, parts=1):
    """An amount of so many parts of a hundredth: as a fraction of a unit, where it is no whole number of hundredths."""
    exact = fractions.Fraction(amount, parts)
    whole = exact.numerator
    return f'{whole // 100}.{whole % 100:02}' if exact.denominator == 1 else str(exact / 100)


def given_arguments():
    """The file and the rule that the arguments name."""
    parser = arguments.Parser('third_count.py', __doc__)
    parser.add_argument('file', type=arguments.file, metavar='FILE', help='a `.pb` file')
    parser.add_argument('--measure', choices=MEASURES, default='votes', help='what a project is worth')
    parser.add_argument('--completion', choices=COMPLETIONS, default='add1', help='what follows a run')
    parser.add_argument('--step', type=int, default=100, metavar='HUNDREDTHS', help='what a raise adds')
    parser.add_argument('--raises', type=int, default=10**6, metavar='MOST', help='how many there may be')
    parser.add_argument('--rule', choices=('equal-shares', MOST_VOTES), help='most-votes has no shares')
    parser.add_argument('--money', choices=MONEY, default=HUNDREDTHS, help='how finely money is divided')
    parser.add_argument('--ties', type=ties, default='file', metavar='RULE', help='what breaks ties')
    given = parser.parse_args()
    completion = MOST_VOTES if given.rule == MOST_VOTES else given.completion
    return given.file, Rule(given.measure, completion, given.step, given.raises, given.ties, given.money)


def main():
    (file, rule), text = given_arguments(), io.StringIO()
    try:
        rows = list(report(Election(file.read_bytes()), rule))
    except Refused as refused:
        print(refused.args[0])
        return refused.args[1]
    csv.writer(text, delimiter=';', lineterminator='\n').writerows(rows)
    sys.stdout.buffer.write(text.getvalue().encode())
    return 0


if __name__ == '__main__':
    sys.exit(main())
