"""The arguments of the tools: `--help` says what a tool does and takes; what it does not take is refused in one line, with
status 2.
"""
import argparse, os, pathlib, sys

TOP = pathlib.Path(__file__).resolve().parent.parent
BUILT = TOP / 'crates' / 'pb_app' / 'out' / 'pb_app'


class Parser(argparse.ArgumentParser):
    """Reads a tool's arguments. The help begins with the first paragraph at the head of the tool's file."""

    def __init__(self, tool, head, more=None):
        # The package gives a tool another name.
        called = os.path.basename(sys.argv[0])
        prog = called if called.startswith('pb_') else f'tools/{tool}'
        super().__init__(prog=prog, description=head.split('\n\n')[0], epilog=more, allow_abbrev=False)

    def error(self, said):
        self.exit(2, f'{self.prog}: {said}; `{self.prog} --help` says what it takes\n')

    def parse_with_program(self):
        """Reads arguments of which the last may be a program; the one that tools/build built, if none is named."""
        self.add_argument('program', nargs='?', type=program, metavar='PROGRAM',
                          help='the program that is tried; the one that tools/build built, if none is named')
        given = self.parse_args()
        if given.program is None and not BUILT.is_file():
            self.error('name a PROGRAM, or build one with tools/build')
        given.program = given.program or BUILT
        return given


def program(text):
    """The path of a program that is there."""
    path = pathlib.Path(text).resolve()
    if not path.is_file() or not os.access(path, os.X_OK):
        raise argparse.ArgumentTypeError(f'{text} is not there, or is no program')
    return path


def file(text):
    """The path of a file that is there."""
    path = pathlib.Path(text)
    if not path.is_file():
        raise argparse.ArgumentTypeError(f'{text} is no file')
    return path


def number(text):
    """A number from 1."""
    if not text.isascii() or not text.isdigit() or int(text) == 0:
        raise argparse.ArgumentTypeError(f'{text} is no number from 1')
    return int(text)
