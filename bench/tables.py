#!/usr/bin/env python3
"""Compares what the tables and the page take for one file with what counting it takes, in one run.

tables.py PROGRAM FILE RUNS [OPTION..]

The options go to each command. Each runs RUNS times, one after the other in turn, and its middle run counts: seconds of
the processors, since others may use them too, and the most memory. Behind it stand the least and the greatest ratio to
the count of the same turn. The tables of projects and voters are checked by tools/recheck.py at the end.
"""
import os
import pathlib
import statistics
import subprocess
import sys
import tempfile

TOP = pathlib.Path(__file__).resolve().parent.parent
COMMANDS = ("count", "projects", "voters", "compare", "page")


def taken(command, output):
    """The processors' seconds and the MiB of memory of a run."""
    with open(output, "wb") as text:
        child = subprocess.Popen(command, stdout=text)
        _, status, usage = os.wait4(child.pid, 0)
    if status != 0:
        sys.exit(f"status {status}: {' '.join(map(str, command))}")
    return usage.ru_utime + usage.ru_stime, usage.ru_maxrss / 1024


def main():
    program, path, runs, *options = sys.argv[1:]
    with tempfile.TemporaryDirectory() as made:
        tables = {name: pathlib.Path(made) / name for name in COMMANDS}
        rounds = [{name: taken([program, name, path, *options], tables[name]) for name in COMMANDS}
                  for _ in range(int(runs))]
        middle = {name: [statistics.median(one[name][part] for one in rounds) for part in (0, 1)] for name in COMMANDS}
        print(f"{os.path.basename(path)}: {os.path.getsize(path) / 2**20:.0f} MiB, load {os.getloadavg()[0]:.1f}")
        for name in COMMANDS:
            size = tables[name].stat().st_size / 2**20
            ratios = [one[name][0] / one["count"][0] for one in rounds]
            print(f"  {name} {middle[name][0]:.2f} s ({middle[name][0] / middle['count'][0]:.2f} of count, "
                  f"{min(ratios):.2f} to {max(ratios):.2f}), peak {middle[name][1]:.0f} MiB, writes {size:.1f} MiB")
        subprocess.run([sys.executable, TOP / "tools" / "recheck.py", path, tables["projects"], tables["voters"]], check=True)


if __name__ == "__main__":
    main()
