"""Agents, and what tells what a machine lacks, on a system without the calls of Linux."""

import contextlib
import sys
from pathlib import Path
from typing import Tuple

from tests.package.cases import Case
from tests.package.helpers import TOP, completed
from tests.package.seat_server import SeatServer

# It says what it has, with a sign that is other bytes in UTF-8, and writes it into a file.
AGENT = """
import sys
from geesefuton.link import run, solve

BID = 100

def play(link, pause):
    link.bid(0, (1, BID))
    print(f"{BID} \u20ac", link.own(0), solve([0] * 28, link.clients))
    with open(sys.argv[0] + ".text", "w") as notes:
        print("a note", file=notes)

run(__doc__, play)
"""


class Agents(Case):
    """A server that stands for a game, in which all is closed soon."""

    def setUp(self) -> None:
        super().setUp()
        self.server = self.enter(contextlib.closing(SeatServer()))
        self.agent = self.folder / "mine.py"
        self.agent.write_text(AGENT, encoding="utf-8")

    def run_it(self, *words: object, tac: str = "") -> Tuple[int, bytes, bytes]:
        """Runs a script or a module as Windows would: its status, its output and its errors."""
        done = completed(sys.executable, Path(__file__).with_name("as_on_windows.py"), *words,
                         env={"AGENT_RECORD": str(self.folder / "record"), "TAC": tac},
                         text=False, cwd=self.folder)
        return done.returncode, done.stdout, done.stderr

    def run_agent(self, agent: Path, *words: str, tac: str = "") -> Tuple[int, bytes, bytes]:
        """Runs an agent so, as the seat `red`."""
        return self.run_it(agent, "127.0.0.1", self.server.port, "red", "--pause", 0, *words,
                           tac=tac)

    def test_an_agent_plays_with_its_numbers_and_its_record(self) -> None:
        for tac in ("", sys.executable):
            self.assertEqual(self.run_agent(self.agent, "--set", "BID=120", "--seed", "3", tac=tac),
                             (0, b"120 \x80 0 None\r\n", b""))
        asked = ["hello red", "bid 0 ((1 120))", "own 0", "quit"]
        self.assertEqual(self.server.heard, asked * 2)
        for name in ("red", "red.2"):
            self.assertEqual((self.folder / "record" / f"{name}.asked").read_bytes(),
                             "".join(f"{line}\n" for line in asked).encode())
            said = (self.folder / "record" / f"{name}.said").read_bytes()
            self.assertEqual((said.count(b"\n"), said.count(b"\r")), (13, 0))
        self.assertEqual((self.folder / "mine.py.text").read_bytes(), b"a note\r\n")

    def test_the_agents_of_the_examples_play(self) -> None:
        self.server.closed = list(range(28))
        for name in ("watcher", "planner", "trader", "baseline"):
            with self.subTest(agent=name):
                status, _, told = self.run_agent(TOP / "examples" / "agents" / f"{name}.py")
                self.assertEqual((status, told, self.server.heard[-1]), (0, b"", "quit"))

    def test_one_that_is_refused_says_so(self) -> None:
        self.server.refusals["hello"] = "refused wrongword"
        self.assertEqual(self.run_agent(self.agent), (1, b"", b"red: refused wrongword\r\n"))

    def test_doctor_tells_that_agents_run_and_where_games_are_hosted(self) -> None:
        status, printed, told = self.run_it("-m", "geesefuton", "doctor")
        text = printed.decode()
        self.assertEqual((status, told, text.count("\n")), (0, b"", 4), text)
        self.assertIn("ok   platform: Windows AMD64, no glibc; agents run here; the program, which "
                      "hosts games, needs x86-64 Linux\n", text)
        self.assertIn("ok   Python: ", text)

    def test_what_needs_the_program_says_so_in_a_line(self) -> None:
        self.assertEqual(self.run_it("-m", "geesefuton", "tac", "make", "1", tac=sys.executable), (
            1, b"", b"geesefuton: tac runs on x86-64 Linux alone: host games there; agents run "
            b"anywhere\n"))
