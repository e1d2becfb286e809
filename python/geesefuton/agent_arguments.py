"""The command line of an agent: the server and seat, and the agent's own numbers."""

import argparse
import ast
import os
import random
import sys
from typing import Any, Dict, Tuple

from geesefuton.arguments import seconds


def agent_parser(what: str) -> argparse.ArgumentParser:
    """The words that every agent takes.

    Args:
        what: What the agent does, for its help text.
    """
    raw = argparse.RawDescriptionHelpFormatter
    parser = argparse.ArgumentParser(description=what, formatter_class=raw)
    parser.add_argument("host", help="the host of the server or the lobby")
    parser.add_argument("port", type=int, help="its port for agents")
    parser.add_argument("word", help="the seat word of the agent")
    # A session has 65,536 lines: with a pause of two seconds they last for the slowest game.
    parser.add_argument("--pause", type=seconds, default=2.0, metavar="SECONDS",
                        help="wait this long between rounds of requests, best at most a tick "
                             "(default: 2)")
    parser.add_argument("--seed", type=int, default=os.environ.get("AGENT_SEED"),
                        help="draw random numbers from this seed (default: the variable "
                             "AGENT_SEED, or a new seed each time)")
    parser.add_argument("--set", action="append", default=[], metavar="NAME=VALUE",
                        help="change a number, or several in brackets, that the agent's file names "
                             "in capitals; may be repeated")
    return parser


def begin(parser: argparse.ArgumentParser, given: argparse.Namespace
          ) -> Tuple[str, int, str, float]:
    """Applies `--set` and `--seed`.

    Returns:
        The host, the port, the seat word and the pause in seconds.
    """
    for text in given.set:
        _change(parser, vars(sys.modules["__main__"]), text)
    if given.seed is not None:
        random.seed(given.seed)
    return given.host, given.port, given.word, given.pause


def _change(parser: argparse.ArgumentParser, names: Dict[str, Any], text: str) -> None:
    """Gives a name of the agent's file another value of its kind, by a text such as `SHADE=1.0`."""
    name, _, written = text.partition("=")
    kinds = next((kinds for kinds in ((int, float), (tuple, list)) if name.isupper()
                  and isinstance(names.get(name), kinds)), None)
    if kinds is None:
        parser.error(f"--set {text}: the agent's file has no number {name} in capitals")
    try:
        value = ast.literal_eval(written)
    except (ValueError, SyntaxError):
        value = None
    if not isinstance(value, kinds):
        parser.error(f"--set {text}: expected a value of the same kind as {name}")
    names[name] = value
