"""What the tests share: games and logs that are kept as data, and the program if it is there."""

import contextlib
import importlib
import os
import re
import subprocess
import sys
import tempfile
import unittest
from functools import lru_cache
from pathlib import Path
from typing import Any, Callable, Dict, List, Optional, Tuple, TypeVar, Union
from unittest import mock

from geesefuton import program
from geesefuton.experiments.comparisons import missing_libraries
from geesefuton.hosting.journal import Schedule
from geesefuton.processes import Output
from geesefuton.records.dialects import asked_by
from geesefuton.records.games import CLOCK, GOODS, HOTELS, SEATS, Game, read_game
from geesefuton.records.logs import Log, read_log
from geesefuton.records.replies import read_points
from tests.package import cases
from tests.package.cases import fake_program as fake_program
from tests.support.trying import COMMAND as COMMAND, TOP as TOP, needs_program as needs_program

DATA = TOP / "tests" / "package" / "data"
PACKAGE = TOP / "python"
SERVED_GAME, SERVED_LOG = DATA / "served.game", DATA / "served.log"
PLAYED = DATA / "played.text"
MOST = 300.0  # seconds that a process may take, on a machine that is busy with other work
Decorated = TypeVar("Decorated", bound=Union[type, Callable[..., Any]])  # tests, or a class of them
needs_study = unittest.skipIf(bool(missing_libraries("these tests")),
                              "there is no numpy, scipy or pandas")


def needs_step(case: Decorated) -> Decorated:
    """Skips tests where the program cannot play a game line by line."""
    return unittest.skipUnless(_has_step(), "there is no program of tac with the command step"
                               )(case)


@lru_cache(maxsize=1)
def _has_step() -> bool:
    with contextlib.suppress(program.ProgramError):
        program.run("step", TOP / "examples" / "first.game", os.devnull)
        return True
    return False


class Case(cases.FolderCase):
    """A test whose folder is its `place`, too."""

    @property
    def place(self) -> Path:
        """The folder."""
        return self.folder


def served_game() -> Game:
    """A game of version 2 with live quotes, one or two rooms a night, and seats 3 and 6 empty."""
    return read_game(SERVED_GAME.read_text())


def served_log() -> Log:
    """The log of that game. Seat 4 crashed, seat 5 only watched."""
    return read_log(SERVED_LOG.read_bytes())


def completed(*words: object, env: Optional[Dict[str, str]] = None,
              **how: Any) -> "subprocess.CompletedProcess[Any]":
    """Runs a command that finds the package to its end, with its output and its errors as texts.

    Args:
        words: The command.
        env: More variables.
        how: What else `subprocess.run` is given.
    """
    how = {"stdin": subprocess.DEVNULL, "stdout": subprocess.PIPE, "stderr": subprocess.PIPE,
           "text": True, "timeout": MOST, "check": False, **how}
    return subprocess.run([str(word) for word in words], env=variables(env), **how)


def run(module: str, *words: object, env: Optional[Dict[str, str]] = None,
        **how: Any) -> "subprocess.CompletedProcess[str]":
    """Runs a command of the package in a process of its own."""
    code = f"import sys; from geesefuton.{module} import main; sys.exit(main())"
    return completed(*python(code, *words), env=env, **how)


def in_process(module: str, *words: object, printed: Union[None, str, Path] = None
               ) -> Tuple[int, str]:
    """Runs a command of the package in this process: its status, and what it tells. With a file
    for what it writes to standard output, what all of the package tells counts."""
    told: List[str] = []
    command = importlib.import_module(f"geesefuton.{module}")
    places = [f"geesefuton.{place}" for place in (module, "processes", "arguments")]
    if printed is not None:
        places = [name for name in sys.modules if name.startswith("geesefuton.")]

    def output(target: Any, name: str = "") -> Output:
        return Output(printed or 1, "standard output") if target == 1 else Output(target, name)

    with contextlib.ExitStack() as stack:
        patch = stack.enter_context
        patch(mock.patch("sys.argv", [module.rpartition(".")[2], *map(str, words)]))
        patch(mock.patch("geesefuton.processes.stop_on_signals"))
        for place in places:
            patch(mock.patch(f"{place}.tell", create=True,
                             new=lambda text, is_passing=False: told.append(text + "\n")))
            if printed is not None:
                patch(mock.patch(f"{place}.Output", output, create=True))
        return command.main(), "".join(told)


refusal = in_process  # of a command that is to be refused


def cells_of(part: str) -> List[List[str]]:
    """The cells of the first table in a text, row by row, without marks."""
    rows = part.split("</table>")[0].split("<tr>")[1:]
    cells = [re.findall(r"<t[dh][^>]*>(.*?)</t[dh]>", row) for row in rows]
    return [[re.sub("<[^>]*>", "", cell) for cell in row] for row in cells]


def python(code: str, *words: object) -> List[str]:
    """The words that run a text with Python."""
    return [sys.executable, "-c", code, *map(str, words)]


def variables(more: Optional[Dict[str, str]] = None) -> Dict[str, str]:
    """Environment variables with which a process finds the package."""
    return {**os.environ, "PYTHONPATH": str(PACKAGE), "PYTHONUNBUFFERED": "", **(more or {})}


# How a JVM is run: it leaves no file where temporary files stand, and loads and compiles little.
JVM = ["-XX:-UsePerfData", "-XX:+UseSerialGC", "-XX:TieredStopAtLevel=1"]


@lru_cache(maxsize=None)
def compiled(*words: str) -> str:
    """The folder of what `javac` makes of its words, until a test module's end."""
    folder = tempfile.TemporaryDirectory()
    unittest.addModuleCleanup(folder.cleanup)
    subprocess.run(["javac", *(f"-J{word}" for word in JVM), "-d", folder.name, *words],
                   stdin=subprocess.DEVNULL, check=True)
    return folder.name

# The beginning of a stand-in for the process of a game of a tournament, which has its job and its
# name then. It starts fast: it loads neither the package nor `multiprocessing`, whose messages are
# four bytes with their length, and then as many of a pickled value.
STAND_IN = """
import os, sys, time
link = int(sys.argv[1])
def take(size):
    data = b""
    while len(data) < size:
        data += os.read(link, size - len(data)) or sys.exit("nobody asks")
    return data
def give(data):
    os.write(link, len(data).to_bytes(4, "big") + data)
job = take(int.from_bytes(take(4), "big"))
name = job.split(b"name\\x94\\x8c", 1)[1]
name = name[1:1 + name[0]].decode()
"""


def worker(game: str) -> str:
    """A stand-in for a process that plays games one after another: what it does in each, after
    `STAND_IN`."""
    return f"while True:\n    exec({STAND_IN + game!r}, {{}})"


class CountingPlayer:
    """Stands for `tac play` in a game in which nobody trades: it counts positions, and knows what
    stands. Each bid costs its agent a dollar.

    Attributes:
        given: The games and scripts that it played.
    """

    def __init__(self) -> None:
        self.given: List[Tuple[str, str]] = []

    def play(self, game: str, script: str) -> Tuple[List[str], str]:
        """The reply lines of a script, and the log."""
        self.given.append((game, script))
        table, told, bids = _Table(read_game(game)), [], [0] * SEATS
        for line in script.splitlines():
            if line == "tick":
                table.advance()
                continue
            caller, text = int(line[0]), line[2:]
            told.append(f"{caller} {table.answer(caller, text)}")
            bids[caller] += text.startswith("bid")
        while table.tick < 54:
            table.advance()
        lines = ["taclog 1", "play"]
        for good in GOODS:
            lines += [f"auction {good} {len(table.entries[good])}", *table.entries[good]]
        lines += ["cash 0", "sheet"]
        for agent, count in enumerate(bids):
            lines += [f"score {agent} 0 {-count} 0 {-count}",
                      *(f"package {agent} {client} none" for client in range(8)),
                      f"cert {agent} 1", "leaf" + " 0" * 28]
        return told, "".join(line + "\n" for line in [*lines, "end"])


class _Table:
    """The auctions of a game in which nobody trades."""

    def __init__(self, game: Game) -> None:
        self.game, self.schedule, self.tick = game, Schedule(game), 0
        self.entries: List[List[str]] = [[] for _ in GOODS]
        self.standing: Dict[Tuple[int, int], str] = {}
        self.readings = 0

    def advance(self) -> None:
        """The clock makes the calls of the next tick."""
        self.tick += 1
        for good in GOODS:
            ticks = self.schedule.ticks[good]
            if self.tick in ticks:
                call = "close" if self.tick == ticks[-1] else "publish" if good in HOTELS else \
                    f"update {self.tick} {self.game.flights[good].draws[self.tick - 1]}"
                reply = "sold 0 0" if good in HOTELS and call == "close" else "done"
                self.entries[good].append(f"{CLOCK} {call} = {reply}")

    def answer(self, caller: int, text: str) -> str:
        """The reply to a request."""
        asked = asked_by(text, "words")
        if asked is None:
            return "no syntax"
        if asked.keyword == "cash":
            self.readings += 1
            return f"@{self.readings - 1} cash 0"
        entries, key = self.entries[asked.good], (caller, asked.good)
        if asked.keyword == "quote":
            prices = [price for (_, good), points in self.standing.items() if good == asked.good
                      for units, price in read_points(points) if units > 0]
            return f"@{len(entries)} quote {max(prices, default=0)} 0 open"
        call, reply = asked.keyword, "done"
        if call == "bid":
            self.standing[key], reply = asked.text.split(" ", 2)[2], "taken 0 0"
            call = f"bid {self.standing[key]}"
        elif call == "withdraw":
            self.standing.pop(key, None)
        else:
            reply = f"own 0 {self.standing.get(key, '()')}"
        entries.append(f"{caller} {call} = {reply}")
        return f"@{len(entries) - 1} {reply}"
