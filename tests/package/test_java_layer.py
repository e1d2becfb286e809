"""The layer in Java, whose link is lost and comes back."""

import contextlib
import shutil
import unittest
from typing import List

from tests.package.helpers import JVM, TOP, compiled, completed
from tests.package.seat_server import HANG, SeatServer

LAYER = TOP / "examples" / "java"


class Game(SeatServer):
    """A game that is over once a bid was made whose reply is lost, the first that begins so.

    Args:
        begin: How the bid begins.
        lost: `""` to end the link there, or `HANG`.
        is_admitted: Whether the bid stands.
    """

    def __init__(self, begin: str, lost: str, is_admitted: bool) -> None:
        super().__init__()
        self._begin, self._lost, self._is_admitted = begin, lost, is_admitted

    def answer(self, line: str) -> str:
        """The reply to a line."""
        if not self._begin or not line.startswith(self._begin):
            return super().answer(line)
        self._begin = ""
        if self._is_admitted:
            super().answer(line)
        self.closed = list(range(28))
        return self._lost


@unittest.skipUnless(shutil.which("javac") and shutil.which("java"), "there is no JDK")
class Lost(unittest.TestCase):
    def played(self, game: Game, **more: str) -> List[str]:
        """What the layer tells of a game, with status 0."""
        classes = compiled("-sourcepath", str(LAYER), str(LAYER / "TripAgent.java"))
        with contextlib.closing(game):
            done = completed("java", *JVM, "-Xmx64m", "-cp", classes, "se.sics.tac.aw.TACAgent",
                             "-agentimpl", "TripAgent", "127.0.0.1", game.port, "red", env=more)
        self.assertEqual(done.returncode, 0, done.stderr)
        return str(done.stderr).splitlines()

    def after_the_loss(self, game: Game) -> List[str]:
        """What was asked from the lost bid on."""
        return game.heard[[line[:4] for line in game.heard].index("bid "):]

    def test_a_lost_bid_is_made_again_after_own_only_if_it_was_not_admitted(self) -> None:
        for is_admitted in (False, True):
            game = Game("bid ", "", is_admitted)
            told, = self.played(game)
            bid, *after = self.after_the_loss(game)
            self.assertEqual(after[:2], ["hello red", f"own {bid.split()[1]}"])
            self.assertEqual((after[2] == bid, bid in after), (not is_admitted,) * 2)
            self.assertRegex(told, "^agent: the link was closed; reconnected after [0-9.]+ s")

    def test_a_reply_has_its_time_and_a_reading_is_repeated(self) -> None:
        game = Game("quote 20", HANG, False)
        told, = self.played(game, AGENT_LIMIT="3")
        at = game.heard.index("quote 20")
        self.assertEqual(game.heard[at + 1:at + 3], ["hello red", "quote 20"])
        self.assertRegex(told, "^agent: no reply in time; reconnected after [0-9.]+ s")
