"""The command lines of the package's programs: errors in one line, and numbers in their ranges."""

import argparse
from typing import Any, Callable, Iterable, NoReturn, Optional

from geesefuton.processes import tell

MOST_SECONDS = 1e6


class _Help(argparse.RawDescriptionHelpFormatter):
    """A help text without headings, whose line of usage leaves out the options, which follow it."""

    def __init__(self, prog: str) -> None:
        super().__init__(Parser.before + prog)

    def add_usage(self, usage: Optional[str], actions: Iterable[argparse.Action],
                  groups: Iterable[Any], prefix: Optional[str] = None) -> None:
        """Adds the line of usage."""
        given = list(actions)
        words = [each for each in given if each.required or not each.option_strings]
        if len(given) > len(words) + 1:  # there are others beside --help
            words.append(argparse.Action(["OPTION .."], "options", nargs=0))
        super().add_usage(usage, words, [], prefix)

    def start_section(self, heading: Optional[str]) -> None:
        """Begins a section, which a blank line tells from what stands above."""
        super().start_section(None)


class Parser(argparse.ArgumentParser):
    """A parser that takes no abbreviations, and reports an error in one line.

    Attributes:
        before: What is typed before the names of commands, in help texts.
    """

    before = ""

    def __init__(self, name: str, description: str) -> None:
        super().__init__(prog=name, description=description, allow_abbrev=False,
                         formatter_class=_Help)

    def error(self, message: str) -> NoReturn:
        """Reports an error, and ends with status 2."""
        tell(f"{self.prog}: {message} (see --help)")
        self.exit(2)


def whole(least: int, most: int = 1 << 30) -> Callable[[str], int]:
    """Reads a whole number from `least` to `most`."""
    def read(text: str) -> int:
        if not (text.isascii() and text.isdigit()) or not least <= int(text) <= most:
            due = f"of {least} or more" if most == 1 << 30 else f"from {least} to {most}"
            raise argparse.ArgumentTypeError(f"expected a number {due}, not {text!r}")
        return int(text)
    return read


def seconds(text: str) -> float:
    """Reads a number of seconds, 0 or more."""
    try:
        value = float(text)
    except ValueError:
        value = -1.0
    if not 0 <= value <= MOST_SECONDS:
        raise argparse.ArgumentTypeError(f"expected a number of seconds, not {text!r}")
    return value
