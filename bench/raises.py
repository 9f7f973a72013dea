#!/usr/bin/env python3
"""Compares what counts of several files take with the best known count in plain Rust, and with an earlier build of the program.

raises.py PROGRAM BEST RUNS FOLDER [EARLIER] [--limits]

BEST is bench/best_count.rs, compiled. The files are those of bench/raises.sh, in FOLDER. Of each file and options the programs
run RUNS times in turn, and have to print the same bytes. With one worker the figures are of processor time, which other work on the
machine disturbs least; with more they are of the clock. The least of all runs counts.
"""
import os
import pathlib
import subprocess
import sys
import tempfile
import time

FILES = [
    ("city", "90,000 voters, 130 projects", ["votes", "cost"], [100]),
    ("mid", "20,000 voters, 200 projects", ["votes", "cost"], [100]),
    ("small", "800 voters, 60 projects", ["votes", "cost"], [100]),
    ("city", "the city by steps of 0.01", ["votes", "cost"], [1]),
]
LIMITS = [("large", "1,000,000 voters, 10,000 projects", ["votes", "cost"], [100])]


def run(command):
    """What a command prints, its seconds of the clock and of the processor."""
    with tempfile.TemporaryFile() as out:
        started = time.monotonic()
        child = subprocess.Popen(command, stdout=out)
        _, _, usage = os.wait4(child.pid, 0)
        seconds = time.monotonic() - started
        out.seek(0)
        return out.read(), seconds, usage.ru_utime + usage.ru_stime


def in_turn(commands, runs):
    """The least seconds of the clock and of the processor of each command, all of which print the same."""
    least = {}
    for _ in range(runs):
        printed = set()
        for name, command in commands.items():
            text, clock, processor = run(command)
            printed.add(text)
            before = least.get(name, (clock, processor))
            least[name] = min(before[0], clock), min(before[1], processor)
        if len(printed) != 1:
            sys.exit(f"{commands} print other bytes")
    return least, int(printed.pop().split(b"raises;")[1].split(b"\n")[0])


def compare(program, best, runs, path, measure, step, earlier):
    options = ["--measure", measure, "--step", str(step), "--workers"]
    commands = {
        "best": [best, path, measure, "step", str(step)],
        "own": [program, "count", path, *options, "1"],
        "2": [program, "count", path, *options, "2"],
        "4": [program, "count", path, *options, "4"],
    }
    if earlier:
        commands["earlier"] = [earlier, "count", path, *options, "1"]
    least, raises = in_turn(commands, runs)
    own = least["own"]
    words = [f"{measure:5}  {raises:6} raises  {own[1]:7.3f} s", f"{own[1] / least['best'][1]:5.2f} of the best known"]
    if earlier:
        words.append(f"{own[1] / least['earlier'][1]:6.3f} of the earlier program")
    words.append(f"2 and 4 workers {least['2'][0] / own[0]:4.2f}, {least['4'][0] / own[0]:4.2f} of one")
    print("  " + ", ".join(words), flush=True)


def main():
    has_limits = "--limits" in sys.argv
    program, best, runs, folder, *others = [word for word in sys.argv[1:] if word != "--limits"]
    for name, text, measures, steps in FILES + (LIMITS if has_limits else []):
        print(text)
        for measure in measures:
            for step in steps:
                path = pathlib.Path(folder) / f"{name}.pb"
                compare(program, best, 1 if name == "large" else int(runs), path, measure, step, others[0] if others else None)


if __name__ == "__main__":
    main()
