#!/usr/bin/env python3
"""Counts made elections in fine money and in exact fractions, and says whether any has other winners.

Fine money is what docs/counting.md says of it: whole parts of a hundredth, prices that are not rounded, payments that are
rounded down. It is counted here in whole numbers by these words. Beside it stands the same rule with fractions, in which
nothing is rounded, and hundredths, so that it is seen how often these differ. It has no code of the program or of
tools/recount.py, and saves no work. A difference is shown with its election and its cause: two projects that are equal
in fractions and come a part apart, so that the rule for ties is not asked; or a project that its supporters can pay for
by less than what was rounded before. One of another cause is an error, status 1.
"""
import collections, itertools, random, sys
from fractions import Fraction

sys.dont_write_bytecode = True
import arguments

PARTS = 10_000
# No more raises than this are tried: what is not decided then is compared as such.
MOST_RAISES = 60
# The causes of a difference.
KNOWN = EQUALS, SHORT = 'by equals that come a part apart', 'by less than what was rounded'

# Budget and costs in hundredths; for each project the voters who want it, from 0.
Election = collections.namedtuple('Election', 'kind budget costs supporters voters')
Rule = collections.namedtuple('Rule', 'measure raises step')


class Exact:
    """Money in fractions of a hundredth: nothing is rounded."""

    def __init__(self, election):
        self.opening = Fraction(election.budget, election.voters) if election.voters else Fraction(0)

    def of(self, hundredths):
        return Fraction(hundredths)

    def price(self, cost, rests):
        """At which payment these rests cover the cost exactly: the rests below it are given whole."""
        missing = cost
        for number, rest in enumerate(sorted(rests)):
            payment = missing / (len(rests) - number)
            if payment <= rest:
                return payment
            missing -= rest
        return None

    def due(self, price):
        return price

    def key(self, price, weight):
        return price / weight


class Fine(Exact):
    """Whole parts of a hundredth, 10,000 for each voter. A price is an amount and how many pay it together."""

    def __init__(self, election):
        self.parts = max(1, PARTS * election.voters)
        self.opening = self.of(election.budget) // election.voters if election.voters else 0

    def of(self, hundredths):
        return self.parts * hundredths

    def price(self, cost, rests):
        if sum(rests) < cost:
            return None
        payers, poor = len(rests), 0
        for rest in sorted(rests):
            if (cost - poor) <= payers * rest:
                break
            payers, poor = payers - 1, poor + rest
        amount = cost - poor
        # What the words say of it: so many could pay it in full, and with what the others have it is the cost.
        assert payers == sum(amount <= payers * rest for rest in rests) > 0
        assert sum(min(payers * rest, amount) for rest in rests) == payers * cost
        return amount, payers

    def due(self, price):
        return price[0] // price[1]

    def key(self, price, weight):
        return Fraction(price[0], price[1] * weight)


class Hundredths(Exact):
    """Whole hundredths: a share is rounded down, a price up."""

    def __init__(self, election):
        self.opening = election.budget // election.voters if election.voters else 0

    def of(self, hundredths):
        return hundredths

    def price(self, cost, rests):
        exact = super().price(Fraction(cost), rests)
        return None if exact is None else -(-exact // 1)

    def key(self, price, weight):
        return Fraction(price, weight)


def rounds(election, rule, money, share):
    """The rounds at a share: the keys of all that can be paid, whom it elects, and how much that one lacks of its cost (less
    than none: how much it has more)."""
    rests, left = [share] * election.voters, list(range(len(election.costs)))
    while True:
        prices = {it: money.price(money.of(election.costs[it]), [rests[voter] for voter in election.supporters[it]])
                  for it in left if election.supporters[it]}
        keys = {it: money.key(price, election.costs[it] if rule.measure == 'cost' else 1)
                for it, price in prices.items() if price is not None}
        if not keys:
            return
        best = min(keys, key=keys.get)
        due, paid = money.due(prices[best]), 0
        for voter in election.supporters[best]:
            payment = min(rests[voter], due)
            rests[voter], paid = rests[voter] - payment, paid + payment
        left.remove(best)
        yield keys, best, money.of(election.costs[best]) - paid


def run(election, rule, money, share):
    """Whom the rounds elect, in their order, and how much each lacks of its cost."""
    return {best: lacks for _, best, lacks in rounds(election, rule, money, share)}


def count(election, rule, money):
    """Whom the rule elects, at which raise; None where no raise decides."""
    answer = None
    for raises in range(MOST_RAISES + 1 if rule.raises else 1):
        elected = run(election, rule, money, money.opening + raises * money.of(rule.step))
        left = election.budget - sum(election.costs[it] for it in elected)
        if left < 0:
            return answer
        answer = raises, list(elected)
        room = any(cost <= left and people and it not in elected
                   for it, (cost, people) in enumerate(zip(election.costs, election.supporters)))
        if not rule.raises or not room:
            return answer
    return None


def cause(election, rule):
    """Why fine money elects others than fractions, at the first raise and round where it does; None if it does not there."""
    exact, fine = Exact(election), Fine(election)
    for raises in range(MOST_RAISES + 1 if rule.raises else 1):
        both = [rounds(election, rule, money, money.opening + raises * money.of(rule.step)) for money in (exact, fine)]
        for (keys, best, _), (others, other, _) in itertools.zip_longest(*both, fillvalue=({}, None, None)):
            if best != other and other in keys and keys[best] == keys[other]:
                return EQUALS
            if best != other and other is not None and other not in keys:
                return SHORT
            if best != other:
                return None
    return None


def winners(answer):
    """At which raise who wins, in no order."""
    return answer and (answer[0], sorted(answer[1]))


def keeps_promises(election, rule):
    """Whether fine money keeps within the budget, and each project lacks less than a part a supporter and nothing more."""
    money = Fine(election)
    elected = run(election, rule, money, money.opening)
    return (sum(election.costs[it] for it in elected) <= election.budget
            and all(0 <= lacks < len(election.supporters[it]) for it, lacks in elected.items()))


# Made elections
def made(chance, number):
    """An election of one of eight kinds."""
    kind = KINDS[number % len(KINDS)]
    return Election(kind.__name__, *kind(chance))


def approvals(chance, voters, projects, likely):
    return [[voter for voter in range(voters) if chance.random() < likely] for _ in range(projects)]


def few(chance):
    """A few projects and voters, costs of all sizes."""
    voters, costs = chance.randint(1, 9), [chance.randint(1, 3000) for _ in range(chance.randint(1, 7))]
    return int(sum(costs) * chance.choice([0.3, 0.6, 0.9])), costs, approvals(chance, voters, len(costs), 0.5), voters


def tiny(chance):
    """Amounts of a few hundredths."""
    voters, costs = chance.randint(1, 6), [chance.randint(1, 30) for _ in range(chance.randint(2, 6))]
    return chance.randint(1, 60), costs, approvals(chance, voters, len(costs), 0.6), voters


def equal(chance):
    """Many equal costs, in whole units."""
    voters, costs = chance.randint(2, 15), [chance.choice([100, 200, 300]) for _ in range(chance.randint(3, 9))]
    return 100 * chance.randint(2, 12), costs, approvals(chance, voters, len(costs), 0.4), voters


def proportional(chance):
    """Costs that are as the numbers of their supporters, so that many keys are equal."""
    voters = chance.randint(3, 12)
    wanted = approvals(chance, voters, chance.randint(3, 7), 0.5)
    unit = chance.choice([7, 33, 100])
    return unit * chance.randint(3, 20), [max(1, len(people)) * unit for people in wanted], wanted, voters


def groups(chance):
    """Groups that want one project each, which costs just what the group's shares come to."""
    sizes = [chance.randint(1, 5) for _ in range(chance.randint(2, 5))]
    voters, unit = sum(sizes), chance.choice([1, 10, 33, 100])
    budget, first, costs, wanted = voters * unit * chance.randint(1, 5), 0, [], []
    for size in sizes:
        costs.append(max(1, budget * size // voters + chance.choice([0, 0, 0, 1, -1])))
        wanted.append(list(range(first, first + size)))
        first += size
    return budget, costs, wanted, voters


def shared(chance):
    """Groups that want several projects, which together cost just what the group's shares come to; some want more."""
    sizes = [chance.randint(1, 5) for _ in range(chance.randint(2, 4))]
    voters = sum(sizes)
    budget, first, costs, wanted = voters * chance.randint(2, 400), 0, [], []
    for size in sizes:
        left, number = budget * size // voters, chance.randint(1, 3)
        for other in range(number):
            cost = left if other == number - 1 else chance.randint(1, max(1, left - 1))
            left -= cost
            if cost > 0:
                costs.append(cost)
                wanted.append(sorted({*range(first, first + size), *(it for it in range(voters) if chance.random() < 0.1)}))
        first += size
    return budget, costs, wanted, voters


def lists(chance):
    """A few lists of projects; who votes for a list votes for all of it."""
    voters = chance.choice([7, 11, 13, 17])
    costs = [chance.choice([50, 99, 100, 101, 333]) for _ in range(chance.randint(4, 9))]
    of = [chance.randrange(3) for _ in costs]
    list_of = [chance.randrange(3) for _ in range(voters)]
    return chance.randint(100, 1500), costs, [[it for it in range(voters) if list_of[it] == on] for on in of], voters


def town(chance):
    """More voters, who approve a few of many projects."""
    voters, costs = chance.randint(20, 60), [100 * chance.randint(5, 300) for _ in range(chance.randint(6, 14))]
    return int(sum(costs) * chance.choice([0.2, 0.4])), costs, approvals(chance, voters, len(costs), 0.2), voters


KINDS = (few, tiny, equal, proportional, groups, shared, lists, town)


def made_rule(chance, election):
    """A rule, whose raises take a step that decides soon."""
    share = election.budget // max(1, election.voters)
    return Rule(chance.choice(['votes', 'cost']), chance.random() < 0.7, max(1, share // chance.choice([3, 7, 20])))


def given_arguments():
    parser = arguments.Parser('fine_fractions.py', __doc__)
    parser.add_argument('--elections', type=arguments.number, default=500, metavar='N', help='how many; 500 if not given')
    parser.add_argument('--seed', type=int, default=1, metavar='N', help='of the chance that makes them')
    return parser.parse_args()


def main():
    given = given_arguments()
    chance, causes, others, turned = random.Random(given.seed), collections.Counter(), 0, 0
    for number in range(given.elections):
        election = made(chance, number)
        rule = made_rule(chance, election)
        exact, fine, rounded = (count(election, rule, money(election)) for money in (Exact, Fine, Hundredths))
        others += winners(exact) != winners(rounded)
        turned += winners(exact) == winners(fine) and exact != fine
        why = None if winners(exact) == winners(fine) else cause(election, rule) or 'unknown'
        if not keeps_promises(election, rule):
            why = 'a promise is broken'
        if why:
            causes[why] += 1
            print(f'{election}\n{rule}\nfractions {exact}, fine {fine}: {why}')
    told = ''.join(f', {number} {why}' for why, number in sorted(causes.items()))
    print(f'{given.elections} elections, {sum(causes.values())} with other winners than in fractions{told}; the same in another '
          f'order {turned}; in hundredths {others} with others')
    return int(bool(set(causes) - set(KNOWN)))


if __name__ == '__main__':
    sys.exit(main())
