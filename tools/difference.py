"""Shows how what a case wrote differs from what it has to write."""
import difflib

# How many lines are compared from the first that differs, and how many around a difference are shown.
COMPARED, AROUND = 200, 2


def lines_of(text):
    """The lines of a text, so that no character goes unseen; the last one is empty where the text ends with a line end."""
    return [''.join(it if it.isprintable() else repr(it)[1:-1] for it in line) for line in text.split('\n')]


def difference(wanted, written):
    """The lines that differ: after `-` those that are expected, after `+` those that were written."""
    pairs = enumerate(zip(wanted, written))
    same = next((at for at, (one, other) in pairs if one != other), min(len(wanted), len(written)))
    begin, end = max(0, same - AROUND), same + COMPARED
    lines = difflib.unified_diff(wanted[begin:end], written[begin:end], n=AROUND, lineterm='')
    return '\n'.join(['what is expected has -, what was written has +:'] + ['..' if it.startswith('@@') else it for it in list(lines)[3:]])
