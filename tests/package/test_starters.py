"""The starters of one file, in three languages: each asks the same lines."""

import contextlib
import importlib
import io
import re
import shutil
import sys
import unittest
from typing import Callable, Dict, List, Optional
from unittest import mock

from tests.package.helpers import JVM, TOP, compiled, completed
from tests.package.seat_server import HANG, SeatServer
from tests.package.test_link import ANSWERS, ASKED, WELCOME, Late, Server

STARTERS = TOP / "examples" / "starters"
GOODS = (0, 1, 2, 3, 7, 8, 9, 10, 11)  # of the trips of WELCOME, all in the cheap hotel
UNITS = {0: 2, 1: 2, 2: 2, 3: 2, 7: 8, 8: 2, 9: 4, 10: 6, 11: 8}
FIRST = [line for good in GOODS for line in
         [f"own {good}", *[f"bid {good} (({UNITS[good]} 600))"] * (good < 8)]]
LAST = ["quote 0", *(f"own {good}" for good in GOODS), "cash", "quit"]
HOLDS = "agent 3 holds 0:0 1:0 2:0 3:0 7:0 8:0 9:0 10:0 11:0, cash 0\n"


def words_of(language: str) -> List[str]:
    """The words that run the starter of a language."""
    if language == "Java":
        classes = compiled("-Xlint:all,-serial", "-Werror", str(STARTERS / "Starter.java"))
        return ["java", *JVM, "-Xmx64m", "-cp", classes, "Starter"]
    if language == "JavaScript":
        return ["node", str(STARTERS / "starter.mjs")]
    return [sys.executable, str(STARTERS / "starter.py")]


class Game(SeatServer):
    """A game that is over at once.

    Args:
        refusals: The replies to the next lines that begin so.
        listen: Is given each line, and gives its answer; None if that is the usual one.
    """

    def __init__(self, refusals: Dict[str, str],
                 listen: Callable[["Game", str], Optional[str]] = lambda game, line: None) -> None:
        super().__init__()
        self.closed, self.refusals, self._listen = [0], refusals, listen

    def answer(self, line: str) -> str:
        """The reply to a line."""
        return self._listen(self, line) or super().answer(line)


class Starters(unittest.TestCase):
    """What holds of the starter of each language."""

    language = ""

    def run_agent(self, port: int, *words: str,
                  **more: str) -> "subprocess.CompletedProcess[str]":
        """Runs the starter as the seat `red` of a port."""
        return completed(*words_of(self.language), "127.0.0.1", port, "red", "--pause", 0, *words,
                         env=more)

    def played(self, game: Game, **more: str) -> List[str]:
        """What the starter asks in a game that is over at once, and then what it tells."""
        with contextlib.closing(game):
            done = self.run_agent(game.port, **more)
        self.assertEqual((done.returncode, done.stdout), (0, HOLDS), done.stderr)
        return [*game.heard, *done.stderr.splitlines()]

    def test_it_plays_a_game(self) -> None:
        self.assertEqual(self.played(Game({})), ["hello red", *FIRST, *LAST])

    def test_it_bids_for_rooms_where_the_quote_has_reached_its_bid(self) -> None:
        def listen(game: Game, line: str) -> None:
            if line.startswith("bid 10"):  # then the game is over
                game.closed.append(0)

        game = Game({"bid 10": "@9 no closed"}, listen)
        game.standing = {9: "((4 80))", 10: "((3 310) (3 90))"}
        game.quotes[8:11], game.closed = [[0, 70], [0, 79], [0, 90]], [11]
        bids = [line for line in self.played(game) if re.match("bid (8|9|1[0-9]) ", line)]
        self.assertEqual(bids, ["bid 8 ((2 120))", "bid 10 ((6 140))"])

    def test_a_link_that_ends_is_back_and_begins_with_own(self) -> None:
        *heard, told = self.played(Game({"bid 7": ""}))
        asked = FIRST[:FIRST.index("own 7") + 2]
        self.assertEqual(heard, ["hello red", *asked, "hello red", *FIRST, *LAST])
        self.assertRegex(told, "^red: the link was closed; reconnected after [0-9.]+ s")

    def test_a_reply_has_its_time_and_a_taken_seat_is_asked_for_again(self) -> None:
        taken = ["refused taken"]

        def listen(game: Game, line: str) -> Optional[str]:
            is_again = line.startswith("hello") and len(game.heard) > 1
            return taken.pop() if is_again and taken else None

        *heard, told = self.played(Game({"own 8": HANG}, listen), AGENT_LIMIT="3")
        asked = FIRST[:FIRST.index("own 8") + 1]
        self.assertEqual(heard, ["hello red", *asked, "hello red", "hello red", *FIRST, *LAST])
        self.assertRegex(told, "^red: no reply within 3 seconds; reconnected after [0-9.]+ "
                         "seconds$")

    def test_what_cannot_be_mended_ends_it_with_a_line(self) -> None:
        answers = [["@0 own 9 ()"]] * 5 + [["@0 own 0 ()"]] * 4 + [["@9 quote 0 1 closed"]] + [
            ["@0 own 0 ()"]] * 9 + [["@0 cash 0"], ["bye"]]
        refused = [["refused wrongword"]]
        for links, words, printed, told in (
                ([[WELCOME]], [], "", "the link was closed"),
                ([refused], [], "", "refused wrongword"),
                # It asks for the next game until its word is refused.
                ([[WELCOME, *answers], refused], ["--again"], HOLDS, "refused wrongword")):
            server = Server(*links)
            done = self.run_agent(server.port, *words)
            server.join()
            self.assertEqual((done.returncode, done.stdout, done.stderr),
                             (1, printed, f"red: {told}\n"))

    def test_words_that_are_none_are_refused_in_a_line(self) -> None:
        done = completed(*words_of(self.language), "localhost")
        self.assertNotEqual(done.returncode, 0)
        self.assertIn("HOST", done.stderr)


class InPython(Starters):
    language = "Python"

    def test_a_link_that_waited_long_for_its_game_may_be_lost_and_waits_again(self) -> None:
        with mock.patch.object(sys, "path", [str(STARTERS), *sys.path]):
            starter = importlib.import_module("starter")
        silent = [Late(0.5, [])]
        server = Server(silent, silent, [Late(0.5, WELCOME), []])
        with mock.patch.multiple(starter, PATIENCE=0.3, TRY=0.05, BETWEEN=0.01), \
                mock.patch.object(sys, "stderr", io.StringIO()):
            link = starter.seat("127.0.0.1", server.port, "red", None)
        self.assertEqual((link.agent, len(link.clients)), (3, 8))
        link.close()
        server.join()


@unittest.skipUnless(shutil.which("node"), "there is no Node")
class InJavaScript(Starters):
    language = "JavaScript"


@unittest.skipUnless(shutil.which("node"), "there is no Node")
class InJson(unittest.TestCase):
    def test_a_link_that_ends_is_back_and_begins_with_own(self) -> None:
        lost = [WELCOME, [ANSWERS[0]]]  # it ends before the first bid is answered
        server = Server(lost, [WELCOME, *([answer] for answer in ANSWERS)])
        done = completed("node", TOP / "examples/agents/asker.mjs", "127.0.0.1", server.port, "red")
        server.join()
        self.assertEqual(done.returncode, 0, done.stderr)
        self.assertRegex(done.stderr,
                         "^red: the link was closed; reconnected after [0-9.]+ seconds\n$")
        heard = [line.rstrip("\n") for line in server.heard]
        self.assertEqual(heard, ["hello red", ASKED[0], "hello red", *ASKED])


@unittest.skipUnless(shutil.which("javac") and shutil.which("java"), "there is no JDK")
class InJava(Starters):
    language = "Java"


del Starters  # it is no test of its own
