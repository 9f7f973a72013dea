"""Where the money of a loser's supporters went, as a page tells it, from tools/recount.py's count alone."""
import fractions

import recount

# What fewer supporters paid is not told, and so many payments are told one by one.
LEAST, MOST = 5, 5


def paid_by_supporters(paths, options):
    """Of each loser that is told of, by its place: pairs of a place and an amount, the largest first, then what was paid for
    other projects, and what is left. Amounts are hundredths, or fractions of them. `paths` are the file and, if there is one,
    the journal."""
    given = recount.options_of([*map(str, paths), *map(str, options)])
    election = recount.read_election(paths[0].read_bytes())
    if paths[1:]:
        recount.replay(paths[1].read_bytes(), election)
    count, outcome = recount.counted_of(election, given)
    payments, won = recount.payments_of(count, outcome), {it.place for it in outcome.elected} | set(outcome.added)
    told = {}
    for place, people in enumerate(count.supporters):
        if place in won or len(people) < LEAST:
            continue
        sums = [(it.place, fractions.Fraction(sum(payments[voter].get(it.place, 0) for voter in people), count.parts)) for it in outcome.elected]
        sums = sorted((pair for pair in sums if pair[1]), key=lambda pair: -pair[1])
        left = fractions.Fraction(len(people) * outcome.share, count.parts) - sum(amount for _, amount in sums)
        told[place] = sums[:MOST], sum(amount for _, amount in sums[MOST:]), left
    return told


def figures_of(told, project):
    """The figures of a page on that, each with the id of the project."""
    most, others, left = told
    text = recount.money_text
    return ([(project, 'paid_for', text(amount)) for _, amount in most]
            + [(project, 'paid_more', text(others))] * bool(others) + [(project, 'kept', text(left))])
