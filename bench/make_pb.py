#!/usr/bin/env python3
"""Writes a .pb file of made-up ballots to standard output, the same for the same arguments.

make_pb.py VOTERS PROJECTS LEAST_APPROVALS MOST_APPROVALS BUDGET_PERCENT [SEED]

Costs are between 10,000.00 and 1,000,000.00. The budget is that percentage of the costs together.
Some projects are approved more often than others, as in cities' files.
"""
import random
import sys


def main():
    voters, projects, least, most, percent = (int(word) for word in sys.argv[1:6])
    chance = random.Random(int(sys.argv[6]) if len(sys.argv) > 6 else 1)
    costs = [chance.randrange(1_000_000, 100_000_000) for _ in range(projects)]
    budget = sum(costs) * percent // 100
    out = sys.stdout
    out.write("META\nkey;value\ndescription;made up\n")
    out.write(f"num_projects;{projects}\nnum_votes;{voters}\n")
    out.write(f"budget;{budget // 100}.{budget % 100:02}\nvote_type;approval\nrule;equalshares\n")
    out.write("PROJECTS\nproject_id;cost;name;votes\n")
    for place, cost in enumerate(costs):
        out.write(f"{place + 1};{cost // 100}.{cost % 100:02};Project {place + 1};0\n")
    out.write("VOTES\nvoter_id;age;vote\n")
    for voter in range(voters):
        number = chance.randint(least, most)
        places = {int(projects * chance.random() ** 1.5) + 1 for _ in range(number)}
        vote = ",".join(str(place) for place in sorted(places))
        out.write(f"{voter + 1};{18 + voter % 70};{vote}\n")


main()
