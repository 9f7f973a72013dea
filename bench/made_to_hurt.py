#!/usr/bin/env python3
"""Compares what files take that were made to take long, at half and at full size.

made_to_hurt.py PROGRAM BEST RUNS

BEST is bench/best_count.rs, compiled. Seconds are of the processor, the least of RUNS runs in turn.
- Winners: each project has a voter of its own, and all win. A page beside `count --plain`. In a second file each project has a category
  of its own, in a third as many others lose.
- Raises: each raise elects one project more, so no two raises in a row elect the same and no jump is tried. One project keeps the
  front from going on: a supporter of it is poor at every share. Another is in reach of every share and never paid, so the first
  raises are not passed over either. `count` beside the best known count, which prints the same bytes.
"""
import os
import pathlib
import subprocess
import sys
import tempfile


def head(budget, columns):
    return ["META", "key;value", f"budget;{budget}", "vote_type;approval", "PROJECTS", columns]


def winners(number):
    projects = [f"p{place};10;Project {place}" for place in range(number)]
    votes = [f"v{place};p{place}" for place in range(number)]
    return head(10 * number, "project_id;cost;name") + projects + ["VOTES", "voter_id;vote"] + votes


def categories(number):
    projects = [f"p{place};10;Project {place};Category {place}" for place in range(number)]
    votes = [f"v{place};p{place}" for place in range(number)]
    return head(10 * number, "project_id;cost;name;category") + projects + ["VOTES", "voter_id;vote"] + votes


def losers(number):
    half = number // 2
    projects = [f"p{place};10;Project {place}" for place in range(half)]
    projects += [f"q{place};11;Other {place}" for place in range(half)]
    votes = [f"v{place};p{place},q{place}" for place in range(half)]
    return head(10 * half, "project_id;cost;name") + projects + ["VOTES", "voter_id;vote"] + votes


def raises(number, group=5):
    """Each project has this many voters; a voter pays half of the opening share for `all`, and then for one project."""
    share = 100 * number
    half, voters = share // 2, number * group
    projects = [f"a;{half - 10}", f"b;{half - 10}", f"poor;{2 * (half - 5)}", f"all;{half * voters}", f"never;{(share - 1) * voters}"]
    projects += [f"p{place};{(half + place + 1) * group}" for place in range(number)]
    votes = ["x;a,b,poor", "y;poor"] + [f"v{voter};all,never,p{voter % number}" for voter in range(voters)]
    return head(share * (voters + 2), "project_id;cost") + projects + ["VOTES", "voter_id;vote"] + votes


def run(command):
    """What a command prints, and its seconds of the processor."""
    with tempfile.TemporaryFile() as out:
        child = subprocess.Popen(command, stdout=out)
        _, status, usage = os.wait4(child.pid, 0)
        if status != 0:
            sys.exit(f"status {status}: {' '.join(map(str, command))}")
        out.seek(0)
        return out.read(), usage.ru_utime + usage.ru_stime


def least(commands, runs):
    """The least seconds of each command, and what the last run of each printed."""
    times, texts = {}, {}
    for _ in range(runs):
        for name, command in commands.items():
            texts[name], taken = run(command)
            times[name] = min(taken, times.get(name, taken))
    return times, texts


def compare(what, make, sizes, commands_of, runs, folder):
    """Prints what the first command takes at each size, to itself at the size before and to the second command."""
    before = None
    for size in sizes:
        path = pathlib.Path(folder) / f"{what}{size}.pb"
        path.write_text("".join(row + "\n" for row in make(size)))
        commands = commands_of(path)
        times, texts = least(commands, runs)
        first, second = commands
        if what == "raises" and texts[first] != texts[second]:
            sys.exit(f"{path}: {first} and {second} print other bytes")
        grown = "" if before is None else f", {times[first] / before:.1f} of half the size"
        print(f"{what} {size:,}: {first} {times[first]:.3f} s{grown}; {times[first] / times[second]:.2f} of {second}", flush=True)
        before = times[first]


def main():
    program, best, runs = sys.argv[1], sys.argv[2], int(sys.argv[3])
    with tempfile.TemporaryDirectory() as folder:
        for make in (winners, categories, losers):
            compare(make.__name__, make, (2_500, 5_000, 10_000), lambda path: {
                "page": [program, "page", path, "--plain"], "count": [program, "count", path, "--plain"]}, runs, folder)
        compare("raises", raises, (1_000, 2_000, 4_000), lambda path: {
            "count": [program, "count", path, "--workers", "1"],
            "best known": [best, path, "votes", "step", "100"]}, runs, folder)


main()
