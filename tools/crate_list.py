"""The list of the crates, crates.txt, and the toolchain that reads it."""
import functools, pathlib, shutil, sys

TOP = pathlib.Path(__file__).resolve().parent.parent
CRATES = TOP / 'crates'


@functools.cache
def kit():
    """The folder of the toolchain whose `rt` is on the path."""
    found = shutil.which('rt') or sys.exit('there is no rt: put the toolchain on the path')
    return pathlib.Path(found).resolve().parent.parent


def name_of(line):
    """The crate that a line of the list names, and nothing for a line of words."""
    return ''.join(line.split('#')[0].partition(':')[0].split()[:1])


def needs():
    """What each crate of the list stands on, libraries of the toolchain among them."""
    lines = (TOP / 'crates.txt').read_text().splitlines()
    return {name_of(line): line.split('#')[0].partition(':')[2].split() for line in lines if name_of(line)}


def below(crate, direct):
    """The crates of the list that a crate stands on, by whatever way."""
    found, waiting = set(), list(direct[crate])
    while waiting:
        name = waiting.pop()
        if name in direct and name not in found:
            found.add(name)
            waiting += direct[name]
    return found
