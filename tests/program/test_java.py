"""Games of agents that are written over the Java layer of examples/java.

Each has to end with status 0 or 6, its log has to be sound, no Java agent may print a fault, the
cash that each prints has to be that of its score, and the bytes that each agent keeps of its link
have to be those of the log, by the plain reading.
"""

import os
import re
import shutil
import subprocess
import sys
import unittest
from pathlib import Path
from typing import Dict, Iterator, List, Sequence

from geesefuton import program
from geesefuton.processes import Children, free_port
from geesefuton.records.games import read_game
from geesefuton.records.logs import read_log
from tests.package.helpers import JVM, compiled
from tests.support.trying import MOST, TOP, needs_program
from tests.support.vouching import Boards, vouching

LAYER, TESTS = TOP / "examples" / "java", TOP / "tests" / "program" / "java"
PACE = 250  # milliseconds
SLOW_PACE = 750  # of the layer's test, which asks much before the first auctions close
PYTHON = ("planner", "trader", "planner", "trader")  # at the odd seats
PURPOSE = "thrown on purpose"  # of an exception by which the test tries the layer


class Game:
    """A served game, whose files are in a folder of its own."""

    def __init__(self, children: Children, game: Path, pace: int = PACE) -> None:
        self.children, self.game = children, game
        self.classes = compiled("-sourcepath", str(LAYER), str(LAYER / "TripAgent.java"),
                                *map(str, sorted(TESTS.glob("*.java"))))
        self.place = children.folder("game")
        self.log, self.links = self.place / "log", self.place / "links"
        self.port = free_port()
        self.agents: Dict[str, "subprocess.Popen[bytes]"] = {}
        with self.log.open("wb") as log:
            self.server = children.start(program.served_words(game, self.port, pace), stdout=log)

    def start(self, seat: int, words: List[str]) -> None:
        """Starts an agent, which prints into a file that has the name of its seat word."""
        with (self.place / f"seat{seat}").open("wb") as out:
            self.agents[f"seat{seat}"] = self.children.start(
                words, stdout=out, stderr=subprocess.STDOUT,
                env={**os.environ, "AGENT_RECORD": str(self.links)})

    def start_java(self, seat: int, name: str) -> None:
        self.start(seat, ["java", *JVM, "-Xmx64m", "-cp", self.classes, "se.sics.tac.aw.TACAgent",
                          "-agentimpl", name, "-host", "localhost", "-port", str(self.port),
                          "-agent", f"seat{seat}"])

    def start_python(self, seat: int, name: str) -> None:
        self.start(seat, [sys.executable, str(TOP / f"examples/agents/{name}.py"), "localhost",
                          str(self.port), f"seat{seat}", "--pause", "0.1"])

    def faults(self, java: Sequence[int]) -> Iterator[str]:
        """Waits until the game and its agents have ended, and yields what is wrong.

        Args:
            java: The seats of the Java agents.
        """
        status = self.server.wait(MOST)
        if status not in (program.OK, program.CLOCK):
            yield f"the server ended with {status}"
            return
        for word, agent in self.agents.items():
            if agent.wait(MOST):
                yield f"{word} ended with {agent.returncode}"
        audit = program.audit(self.game, self.log)
        if audit != "sound":
            yield f"the log is {audit}"
        log = read_log(self.log.read_bytes())
        boards = Boards(read_game(self.game.read_text()), log)
        for word in self.agents:
            asked, said = ((self.links / f"{word}.{side}").read_bytes()
                           for side in ("asked", "said"))
            found = vouching(boards, asked, said)
            if not found.startswith(f"vouched {word[4:]} whole "):
                yield f"what {word} has kept is {found}"
        for seat in java:
            printed = (self.place / f"seat{seat}").read_text(errors="replace")
            told = re.search(r"^seat\d holds.*, cash (-?\d+),", printed, re.MULTILINE)
            if not told or int(told[1]) != log.scores[seat].cash:
                yield f"seat{seat} tells {told and told[1]} dollars of {log.scores[seat].cash}"
            yield from (f"seat{seat}: {line}" for line in printed.splitlines()
                        if "Exception" in line and PURPOSE not in line
                        or line.startswith("fault: "))


@needs_program
@unittest.skipUnless(shutil.which("javac") and shutil.which("java"), "there is no JDK")
class Java(unittest.TestCase):
    def setUp(self) -> None:
        self.children = Children()
        self.addCleanup(self.children.close)
        self.made = self.children.folder() / "made.game"
        self.made.write_text(program.make(42))

    def test_eight_java_agents(self) -> None:
        game = Game(self.children, self.made)
        for seat in range(8):
            game.start_java(seat, "TripAgent")
        self.assertEqual(list(game.faults(range(8))), [])

    def test_java_and_python_agents_also_with_few_rooms_and_live_quotes(self) -> None:
        for file in (self.made, TOP / "examples" / "few_rooms.game"):
            game = Game(self.children, file)
            for seat in range(0, 8, 2):
                game.start_java(seat, "TripAgent")
                game.start_python(seat + 1, PYTHON[seat // 2])
            self.assertEqual(list(game.faults(range(0, 8, 2))), [])

    def test_an_agent_that_tests_the_layer_from_within(self) -> None:
        game = Game(self.children, self.made, SLOW_PACE)
        game.start_java(0, "LayerTest")
        self.assertEqual(list(game.faults([0])), [])
        self.assertRegex((game.place / "seat0").read_text(), r"(?m)^\d+ tests, \d+ faults$")
