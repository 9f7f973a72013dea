#!/usr/bin/env python3
"""Counts small made elections that take many raises, and compares each report with the plain program's.

many_raises.py PROGRAM PLAIN HOW_MANY [SEED]

PLAIN is bench/plain_count.rs, compiled: it runs every raise from fresh shares, one after the other, and knows no trial, no bound and no
jump. The elections have few projects and voters, and costs that are often equal, so that there are ties; steps are small, so that
there are many raises. PROGRAM counts each by both measures, with 1 to 64 workers, and with limits of raises one beyond the answer and
one before it, where it has to print that the raises are spent. The elections are the same for the same seed.
"""
import pathlib
import random
import subprocess
import sys
import tempfile

SPENT = b"fault;count;4;RaisesSpent\n"


def money(amount):
    return f"{amount // 100}.{amount % 100:02}"


def made(chance):
    projects, voters = chance.randint(1, 12), chance.choice([1, 2, 3, 5, 8, 13, 30, 80])
    unit = chance.choice([1, 10, 50, 500])
    kinds = chance.choice([2, 5, 40])
    costs = [chance.randint(1, kinds) * unit + chance.choice([0, 0, 0, 1, 7]) for _ in range(projects)]
    budget = sum(costs) * chance.choice([20, 40, 60, 80, 95, 110]) // 100
    part = chance.choice([0.08, 0.2, 0.35, 0.6])
    rows = ["META", "key;value", f"budget;{money(budget)}", "vote_type;approval", "PROJECTS", "project_id;cost"]
    rows += [f"p{place};{money(cost)}" for place, cost in enumerate(costs)] + ["VOTES", "voter_id;vote"]
    for voter in range(voters):
        rows.append(f"v{voter};" + ",".join(f"p{place}" for place in range(projects) if chance.random() < part))
    return "".join(row + "\n" for row in rows)


def output(command):
    return subprocess.run(command, stdout=subprocess.PIPE, stderr=subprocess.DEVNULL).stdout


def main():
    program, plain, how_many = sys.argv[1], sys.argv[2], int(sys.argv[3])
    chance = random.Random(int(sys.argv[4]) if len(sys.argv) > 4 else 1)
    counts, raises, raised, longest = 0, 0, 0, 0
    with tempfile.TemporaryDirectory() as folder:
        path = pathlib.Path(folder) / "made.pb"
        for number in range(how_many):
            path.write_text(made(chance))
            step = chance.choice([1, 1, 2, 3, 10])
            for measure in ("votes", "cost"):
                wanted = output([plain, path, measure, "step", str(step)])
                raise_count = int(wanted.split(b"raises;")[1].split(b"\n")[0])
                own = [program, "count", path, "--step", str(step), "--measure", measure, "--workers"]
                workers = str(chance.choice([1, 2, 3, 4, 7, 64]))
                tries = [(own + [workers], wanted), (own + ["1"], wanted)]
                tries.append((own + [workers, "--raises", str(raise_count + 1)], wanted))
                if raise_count > 0:
                    tries.append((own + [workers, "--raises", str(raise_count - 1)], SPENT))
                for command, report in tries:
                    if output(command) != report:
                        kept = pathlib.Path("differs.pb")
                        kept.write_text(path.read_text())
                        sys.exit(f"election {number} differs, in {kept}: {' '.join(map(str, command[3:]))}")
                    counts += 1
                raises += raise_count
                raised += raise_count > 0
                longest = max(longest, raise_count)
    print(f"{how_many} elections, {counts} counts agree; {raised} answers raised, {raises} raises in all, {longest} the most")


main()
