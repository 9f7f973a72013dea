#!/usr/bin/env python3
"""Writes a script of made-up requests to standard output: make_script.py CLERKS ROWS VOTERS.

The clerks take turns. Each row replaces the ballot of one of the voters 1 to VOTERS by one of two places.
"""
import sys


def main():
    clerks, rows, voters = (int(word) for word in sys.argv[1:4])
    out = sys.stdout
    for row in range(rows):
        out.write(f"{row % clerks};replace;{row * 7919 % voters + 1};{row % 10},{10 + row % 7}\n")


main()
