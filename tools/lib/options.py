"""Words with options among them. What is wrong with them is one line, as of every tool (`lib/words.py`), which has the help too."""
import argparse

from lib.words import Wrong


def number(low, high):
    """The type of an option that is a number in a range."""

    def read(word):
        if not word.isdecimal() or not low <= int(word) <= high:
            raise argparse.ArgumentTypeError(f"{word}: it is a number from {low} to {high}")
        return int(word)

    return read


class Parser(argparse.ArgumentParser):
    """Reads the words of a tool; `format_help` is its text with a line for each option that has one."""

    def __init__(self, tool, about=None):
        form = argparse.RawDescriptionHelpFormatter
        super().__init__(prog=tool, description=about, usage=argparse.SUPPRESS, add_help=False, allow_abbrev=False, formatter_class=form)

    def error(self, message):
        raise Wrong(message)

    def take(self, kind, *names):
        """Options with a value of a kind; with none they have None."""
        for name in names:
            self.add_argument(name, type=kind)
        return self

    def flags(self, *names):
        for name in names:
            self.add_argument(name, action="store_true")
        return self

    def read(self, given):
        """The options, and the words among them."""
        self.add_argument("words", nargs="*")
        return self.parse_intermixed_args(given)
