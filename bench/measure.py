#!/usr/bin/env python3
"""Runs a command, and prints its seconds of processor time and of the clock, and its peak memory, to standard error.

measure.py LABEL [UNITS] -- COMMAND..
With UNITS, a number of records or entries, it prints units a second of processor time too.
"""
import os
import subprocess
import sys
import time


def main():
    split = sys.argv.index("--")
    label, units = sys.argv[1], sys.argv[2:split]
    started = time.monotonic()
    child = subprocess.Popen(sys.argv[split + 1 :])
    _, status, usage = os.wait4(child.pid, 0)
    seconds = time.monotonic() - started
    busy = usage.ru_utime + usage.ru_stime
    line = f"{label}: {busy:.2f} s of processor time, {seconds:.2f} s, peak {usage.ru_maxrss / 1024:.0f} MiB"
    if units:
        line += f", {int(units[0]) / busy:,.0f} a second"
    print(line + f" (status {os.waitstatus_to_exitcode(status)})", file=sys.stderr)


main()
