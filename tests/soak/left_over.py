"""Ends each script around the server in several ways; it leaves no process that it started and no
folder that it made.

    python3 -m tests.soak.left_over SEED

Each script runs to its end, and is ended by SIGINT, SIGTERM, SIGHUP and SIGKILL at three moments;
in the tournament an agent hangs, and ignores every signal that can be ignored. The room has a guest
beside it, and one of the lobbies a browser. All that a script starts inherits an environment
variable, by which it is found in /proc, so this needs Linux; its temporary files stand in a folder
of its own. A seed stands for a fourth of all runs, and four seeds in a row for all. It takes some
two minutes.
"""

import contextlib
import os
import signal
import subprocess
import sys
import time
from concurrent.futures import ThreadPoolExecutor
from pathlib import Path
from typing import Any, Dict, Iterator, List, NamedTuple, Optional

from geesefuton import program
from geesefuton.processes import Children, free_port
from tests.support import soaking
from tests.support.trying import TOP, Place

PARTS = 4  # of all runs
AT_ONCE = 2
MOST = 300.0  # seconds that a script may take to end
ENDING = 20.0  # seconds that what stands beside a script may take to end
MOMENTS = (0.2, 1.5, 4.0)  # seconds after its start at which a script is ended
ENDS = (None, signal.SIGINT, signal.SIGTERM, signal.SIGHUP, signal.SIGKILL)
HANGER = """import signal, socket, sys, time
for number in (signal.SIGTERM, signal.SIGINT, signal.SIGHUP):
    signal.signal(number, signal.SIG_IGN)
link = socket.create_connection((sys.argv[1], int(sys.argv[2])))
link.sendall(f"hello {sys.argv[3]}\\n".encode())
while True:
    time.sleep(1)
"""

GEESEFUTON = "python/geesefuton"  # the command, as a script


class Script(NamedTuple):
    """A script that is tried.

    Attributes:
        name: What it is called here.
        words: Its file and its words. PORT and PAGE stand for free ports.
        beside: The same of a script that it plays with, which is started before it.
        stays: Whether it goes on until a signal ends it.
    """

    name: str
    words: List[str]
    beside: List[str] = []
    stays: bool = False


class Run(NamedTuple):
    """A script that is ended in one way: by a signal after some seconds, or by itself."""

    script: Script
    number: Optional[signal.Signals]
    moment: float

    @property
    def how(self) -> str:
        """The way, in words."""
        if self.number is None:
            return "its own end"
        return f"{self.number.name} after {self.moment:g} s"


def scripts(hanger: str, record: str) -> Iterator[Script]:
    """Each script; the lobby comes four times: waiting for its agents, running a game, showing one
    on a page, and letting it be played by hand there.

    Args:
        hanger: The file of an agent that hangs.
        record: The stem of an agent's record of its link.
    """
    data = TOP / "tests" / "package" / "data"
    journal, game = str(data / "lobby.journal"), str(TOP / "examples" / "first.game")
    planner = "examples/agents/planner.py"
    agents = [hanger, str(TOP / planner)]
    in_turns = ["--turns", "10", "--patience", "1", "--after", "1"]
    lobby = [GEESEFUTON, "lobby", game, "PORT", "100", "--after", "1"]
    yield Script("quick start", [GEESEFUTON, "quickstart"])
    yield Script("tournament", [GEESEFUTON, "tournament", "--games", "3", "--pace", "40", "--after",
                                "1", "--out", "clock", *agents])
    yield Script("tournament in turns", [GEESEFUTON, "tournament", "--games", "3", *in_turns,
                                         "--out", "turns", *agents])
    yield Script("profiles", [GEESEFUTON, "profiles", "--games", "1", *in_turns, "--out", "study",
                              *agents])
    yield Script("lobby, waiting", [*lobby, "--start", "4"])
    yield Script("lobby, game", [*lobby, "--start", "0.1"])
    yield Script("lobby, page", [*lobby, "--start", "0.1", "--page", "PAGE"])
    yield Script("live page", [GEESEFUTON, "live", journal, "PORT"], stays=True)
    yield Script("recovery", [GEESEFUTON, "recover", journal])
    yield Script("vouching", [GEESEFUTON, "vouch", str(data / "served.game"),
                              str(data / "served.log"), record])
    yield Script("room", [GEESEFUTON, "room", "--port", "PORT", "--page", "PAGE", "--pace", "50",
                          "--wait", "0.3", "--after", "1", "--games", "1"],
                 [planner, "localhost", "PORT", "seat0", "--pause", "0.05", "--again"])
    yield Script("lobby, by hand", [*lobby, "--start", "1.5", "--page", "PAGE"],
                 ["tests/support/hand.py", "PAGE"])
    yield Script("learner", ["examples/learner.py", "--rounds", "2", "--games", "2", "--unseen",
                             "10"])
    yield Script("game in steps", ["examples/step.py"])


def tell(script: "subprocess.Popen[bytes]", number: signal.Signals) -> None:
    """Sends a signal to a script that may have ended."""
    with contextlib.suppress(ProcessLookupError):
        script.send_signal(number)


def end(script: "subprocess.Popen[bytes]", number: Optional[signal.Signals]) -> None:
    """Ends a script. Ctrl-C comes twice, since the lobby only warns at the first one; and the
    lobby lets a game go on when its terminal closes."""
    if number:
        tell(script, number)
        time.sleep(0.3)
        if number == signal.SIGINT and script.poll() is None:
            tell(script, number)
    script.wait(MOST)


def tried(run: Run, children: Children) -> List[str]:
    """Ends a script, and gives what is left of it.

    Args:
        run: The script, and how it ends.
        children: By which a folder is made, and what stands beside the script is started.
    """
    script, folder = run.script, children.folder("run")
    place = Place(folder / "temporary")
    ports = {name: str(free_port()) for name in ("PORT", "PAGE")}

    def words_of(words: List[str]) -> List[str]:
        return [sys.executable, str(TOP / words[0]), *(ports.get(word, word) for word in words[1:])]

    variables = {**os.environ, "TAC": program.find()}
    how: Dict[str, Any] = {"cwd": folder, "stdin": subprocess.DEVNULL,
                           "stdout": subprocess.DEVNULL, "stderr": subprocess.DEVNULL}
    with contextlib.ExitStack() as stack:
        if script.beside:
            beside = children.start(words_of(script.beside), env=variables, **how)
            stack.callback(stop, beside, children)
        process = stack.enter_context(subprocess.Popen(
            words_of(script.words), start_new_session=True,
            env={**variables, **place.variables}, **how))
        time.sleep(run.moment)
        with contextlib.suppress(subprocess.TimeoutExpired):  # it is among what is left then
            end(process, run.number)
        left = place.left()
    return left


def stop(beside: "subprocess.Popen[bytes]", children: Children) -> None:
    tell(beside, signal.SIGTERM)
    with contextlib.suppress(subprocess.TimeoutExpired):
        beside.wait(ENDING)
    children.end(beside)


def soak(seed: int, folder: Path, children: Children) -> Iterator[str]:
    hanger = folder / "hanger.py"
    hanger.write_text(HANGER)
    for side, line in (("asked", "hello twotrips\n"), ("said", "welcome 0\n")):
        (folder / f"twotrips.{side}").write_text(line)
    runs = [Run(script, number, moment)
            for script in scripts(str(hanger), str(folder / "twotrips"))
            for number in ENDS[script.stays:] for moment in (MOMENTS if number else (0.0,))]
    runs = runs[seed % PARTS::PARTS]
    with ThreadPoolExecutor(AT_ONCE) as pool:
        for run, rest in zip(runs, pool.map(lambda run: tried(run, children), runs)):
            yield from (f"{run.script.name}, {run.how}: {what}" for what in rest)
    print(f"{len(runs)} scripts were ended")


if __name__ == "__main__":
    soaking.main("left_over", __doc__, soak)
