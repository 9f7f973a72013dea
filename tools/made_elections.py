"""Elections of a few projects and voters, and requests at their desks, for tools that compare counts."""
import recount


def made_file(chance):
    """A file of a few projects and voters: whole costs and broken ones, equal ones, some projects without supporters."""
    names = [f'p{place}' for place in range(chance.randint(1, 7))]
    unit = chance.choice([1, 10, 33, 100])
    costs = [chance.randint(1, 15) * unit + chance.choice([0, 0, 1, 99]) for _ in names]
    budget = int(sum(costs) * chance.choice([0, 0.3, 0.6, 0.9, 1, 1.5]))
    money = recount.money_text
    rows = ['META', 'key;value', f'budget;{money(budget)}', 'vote_type;approval']
    rows += [f'max_length;{chance.randint(0, 3)}'] if chance.random() < 0.5 else []
    rows += ['PROJECTS', 'project_id;cost'] + [f'{name};{money(cost)}' for name, cost in zip(names, costs)]
    share, rows = chance.choice([0.2, 0.4, 0.8]), rows + ['VOTES', 'voter_id;vote']
    for voter in range(chance.choice([0, 1, 2, 3, 5, 9, 20])):
        rows.append(f'v{voter};' + ','.join(name for name in names if chance.random() < share))
    return ''.join(row + '\n' for row in rows).encode()


def made_script(chance):
    """Requests at a desk, of which it refuses some: voters that are known or not, places that no project has."""
    rows = []
    for _ in range(chance.randint(0, 12)):
        request, voter = chance.choice(['cast', 'replace', 'withdraw']), f'{chance.choice("vw")}{chance.randrange(8)}'
        places = [] if request == 'withdraw' else chance.sample(range(8), chance.randint(0, 4))
        rows.append(f'0;{request};{voter};' + ','.join(map(str, places)))
    return ''.join(row + '\n' for row in rows).encode()


def small_file(chance):
    """A file with few projects, half of which can be paid for, so that rules often elect others."""
    costs = [chance.randint(1, 9) for _ in range(chance.randint(3, 6))]
    ballots = [','.join(f'p{at}' for at in range(len(costs)) if chance.random() < 0.4) for _ in range(chance.randint(3, 9))]
    rows = ['META', 'key;value', f'budget;{max(2, sum(costs) // 2)}', 'vote_type;approval', 'PROJECTS', 'project_id;cost',
            *(f'p{at};{cost}' for at, cost in enumerate(costs)), 'VOTES', 'voter_id;vote', *(f'v{at};{it}' for at, it in enumerate(ballots))]
    return ''.join(f'{row}\n' for row in rows).encode()
