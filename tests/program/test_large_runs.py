"""The program on inputs larger than those of other tests: a long script and its log, a table of 64
games, a served game with live quotes, and files at their limits.

A contract allows the status 7 and the line `memory` wherever memory may be refused, so a program
that says so without cause meets its contracts; these runs have enough memory, and 7 is wrong in
each.
"""

from typing import Tuple

from geesefuton.processes import free_port
from tests.package.helpers import Case
from tests.support.trying import TOP, lines_in_order, needs_program, ran

GAME = TOP / "examples" / "first.game"
GAME_BYTES = 1_048_576  # that a game file may have
TEXT_BYTES = 67_108_864  # that a script, a log, an account or a file of a link may have
CALLS = 1024  # that an agent may make in one auction


def long_script() -> str:
    """All requests that eight agents can make in 28 auctions, without any trade: 229,376."""
    return "".join(f"{agent} own {good}\n" for _ in range(CALLS) for good in range(28)
                   for agent in range(8))


def lines_of(seat: int) -> str:
    """The lines of an agent that bids in each hotel and asks for its quotes."""
    bids = (f"bid {good} ((1 {100 + seat}))\nquote {good}\n" for good in range(8, 16))
    return f"hello seat{seat}\n" + "".join(bids) + "quit\n"


@needs_program
class LargeRuns(Case):
    def setUp(self) -> None:
        super().setUp()
        self.script, self.log, self.file = (self.place / name for name in ("script", "log", "file"))

    def ran(self, *words: object) -> Tuple[int, bytes]:
        done = ran(*words)
        return done.returncode, done.stdout

    def play(self, script: str) -> None:
        self.script.write_text(script)
        status, text = self.ran("play", GAME, self.script)
        self.assertEqual(status, 0)
        self.log.write_bytes(text[text.index(b"taclog 1\n"):])

    def test_a_long_script_and_the_audit_of_its_log(self) -> None:
        self.play(long_script())
        self.assertGreater(self.log.stat().st_size, 1_000_000)
        self.assertEqual(self.ran("audit", GAME, self.log), (0, b"sound\n"))

    def test_a_table_of_64_games(self) -> None:
        self.play("0 bid 0 ((1 400))\n")
        status, text = self.ran("table", *[GAME, self.log] * 64)
        self.assertEqual((status, text[:9]), (0, b"table 64\n"))

    def test_a_served_game_with_live_quotes_and_long_records(self) -> None:
        self.file.write_bytes(self.ran("upgrade", GAME)[1].replace(b"\nquotes minute\n",
                                                                   b"\nquotes live\n"))
        port = free_port()
        with lines_in_order(port, [lines_of(seat) for seat in range(8)]) as sent:
            status, text = self.ran("serve", self.file, port, 5)
        self.assertEqual(status, 0)
        self.assertTrue(all(sent.endswith(b"bye\n") for sent in sent))
        self.log.write_bytes(text)
        self.assertEqual(self.ran("audit", self.file, self.log), (0, b"sound\n"))
        said = self.log.with_name("said")
        # What stands behind the last line end of a file of a link is not compared.
        for size, due in ((TEXT_BYTES, (0, b"vouched 0 cut 17 0\n")),
                          (TEXT_BYTES + 1, (8, b"text too long\n"))):
            for file, data in ((self.script, lines_of(0).encode("ascii")), (said, sent[0])):
                file.write_bytes(data.ljust(size, b"x"))
            self.assertEqual(self.ran("vouch", self.file, self.log, self.script, said), due)

    def test_a_game_and_an_account_at_their_limits(self) -> None:
        game = GAME.read_bytes()
        for size in (GAME_BYTES, GAME_BYTES + 1):
            self.file.write_bytes(b"#".ljust(size - len(game) - 1, b"-") + b"\n" + game)
            status, text = self.ran("show", self.file)
            self.assertEqual(text == b"game too long\n", size > GAME_BYTES)
            self.assertEqual(status, 2 if size > GAME_BYTES else 0)
        self.file.write_bytes(bytes(TEXT_BYTES + 1))
        self.assertEqual(self.ran("solve", self.file), (8, b"text too long\n"))
