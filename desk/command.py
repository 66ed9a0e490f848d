"""What `explain` and `picture` share as commands: their options, where the lines come from, and how they end."""
import argparse
import os
import pathlib
import subprocess
import sys

from desk.lines import NotLines, read

INSPECT = pathlib.Path(__file__).resolve().parent.parent / "inspect"


class Refused(Exception):
    """Ends a command with one line on standard error and status 2."""


class Options(argparse.ArgumentParser):
    """Options of a command that reads the lines of inspect; what is wrong with them is said in one line."""

    def __init__(self, name, about):
        super().__init__(prog=name, description=about, allow_abbrev=False)
        self.add_argument("--lines", action="store_true", help="FILE has the lines that inspect writes, not a transcript")
        self.add_argument("--preference", metavar="N", type=digits, help="0, as without it: readers are preferred; 1: writers are")
        self.add_argument("file", metavar="FILE", nargs="?", help="a transcript; without it, standard input")

    def error(self, message):
        raise Refused(f"{message} (see {self.prog} --help)")


def digits(text):
    """A decimal number as it was written: the program says what it makes of it."""
    if text.isascii() and text.isdigit():
        return text
    raise argparse.ArgumentTypeError(f"takes a decimal number, not '{text}'")


def given(options):
    """The lines that the command was given, or that inspect writes of the transcript that it was given."""
    if options.lines and options.preference is not None:
        raise Refused("--preference goes with a transcript, not with --lines: the lines say it themselves")
    preference = [] if options.preference is None else ["--preference", options.preference]
    try:
        named = options.file is not None
        with open(options.file if named else 0, "rb", closefd=named) as source:
            if options.lines:
                return source.read().splitlines()
            inspected = subprocess.run([INSPECT, *preference], stdin=source, stdout=subprocess.PIPE)
    except OSError as error:
        raise Refused(f"cannot read {error.filename or 'standard input'}: {error.strerror}") from None
    if inspected.returncode:
        raise Refused(f"./inspect ended with status {inspected.returncode}")
    return inspected.stdout.splitlines()


def write(text):
    """Writes the text; a reader that closes early, as head does, is no error."""
    try:
        sys.stdout.write(text)
        sys.stdout.flush()
    except BrokenPipeError:
        os.dup2(os.open(os.devnull, os.O_WRONLY), sys.stdout.fileno())


def run(parser, work):
    """Writes the text that `work` makes of the options and the lines, or one line that says what is wrong."""
    try:
        options = parser.parse_args()
        text = work(options, read(given(options)))
    except (Refused, NotLines) as wrong:
        print(f"{parser.prog}: {wrong}", file=sys.stderr)
        sys.exit(2)
    write(text)
