#!/usr/bin/env python3
"""Compares what the program takes for one file with what reading it takes, and with the plain program, in one run.

ratios.py PROGRAM PLAIN FILE RUNS [OPTION..]

The options go to `count`. Each command runs RUNS times, and its best time counts. Seconds are of the clock; a ratio is of two such times.
"""
import os
import subprocess
import sys
import time


def best(runs, command):
    """The least seconds of some runs, and the most memory in MiB."""
    times, peak = [], 0.0
    for _ in range(runs):
        started = time.monotonic()
        child = subprocess.Popen(command, stdout=subprocess.DEVNULL)
        _, _, usage = os.wait4(child.pid, 0)
        times.append(time.monotonic() - started)
        peak = max(peak, usage.ru_maxrss / 1024)
    return min(times), peak


def main():
    program, plain, path, runs, *options = sys.argv[1:]
    runs = int(runs)
    size = os.path.getsize(path) / 2**20
    # No count is made with 0 workers, and that is found after the reading: so this is the reading alone.
    reading, _ = best(runs, [program, "count", path, "--workers", "0"])
    plain_reading, _ = best(runs, [plain, path, "read"])
    words = [word.lstrip("-") for word in options]
    plain_count, plain_peak = best(runs, [plain, path, *words])
    print(f"{os.path.basename(path)}: {size:.0f} MiB, {os.cpu_count()} processors, count {' '.join(options) or 'with Add1'}")
    print(f"  reading {reading:.2f} s ({reading / plain_reading:.2f} of plain Rust's)")
    print(f"  plain Rust {plain_count:.2f} s, peak {plain_peak:.0f} MiB")
    for workers in (1, 2, 4):
        seconds, peak = best(runs, [program, "count", path, "--workers", str(workers), *options])
        if workers == 1:
            one = seconds
        print(
            f"  {workers} workers {seconds:.2f} s: {seconds / reading:.1f} of reading, {seconds / plain_count:.2f} of plain Rust, "
            f"{seconds / one:.2f} of one worker; peak {peak:.0f} MiB"
        )


main()
