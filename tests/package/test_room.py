"""The practice room: whole games by the real program, at a quick pace."""

import contextlib
import json
import os
import signal
import socket
import subprocess
import time
from typing import Any, Callable, Dict, Iterator, List

from geesefuton.processes import free_port
from tests.package import cases
from tests.package.helpers import needs_program
from tests.support.rooms import PlayedRoom

MOST = 600.0  # seconds that anything may take, on a machine that is busy with other work

# An agent of the house: it bids once, for a flight, and quits. Eight of them start for a game, so
# it loads no more than it needs.
HOUSE = """
import socket, sys
lines = socket.create_connection((sys.argv[1], int(sys.argv[2]))).makefile("rw")
def ask(line):
    lines.write(line + "\\n")
    lines.flush()
    return lines.readline()
agent = ask("hello " + sys.argv[3]).split()[1]
for _ in range(9):
    lines.readline()
for line in ("bid " + agent + " ((1 900))", "own 8", "quit"):
    ask(line)
"""
# A guest: it bids once, too, and then does what the variable WHAT says.
GUEST = """
import os, sys, time
from geesefuton.link import run
def play(link, pause):
    link.bid(link.agent, (1, 900))  # what a flight costs differs from game to game
    what = os.environ.get("WHAT", "")
    if what == "crash":
        os._exit(3)
    if what == "hang":
        time.sleep(600)
    link.own(8)
run(__doc__, play)
"""


@needs_program
class Games(cases.FolderCase):
    def setUp(self) -> None:
        super().setUp()
        self.house, self.visitor = self.folder / "mine.py", self.folder / "visitor.py"
        self.house.write_text(HOUSE)
        self.visitor.write_text(GUEST)
        self.played = PlayedRoom(self.folder)
        self.addCleanup(self.played.close)

    def room(self, *more: object, **how: int) -> "subprocess.Popen[bytes]":
        return self.played.start("--pace", 10, "--wait", 0.3, "--after", 0.5, "--house", self.house,
                                 *more, **how)

    def guest(self, word: str, what: str = "") -> "subprocess.Popen[bytes]":
        return self.played.join(self.visitor, word, 0.01, WHAT=what)

    def until(self, holds: Callable[[], Any], told: Any = "") -> None:
        deadline = time.monotonic() + MOST
        while not holds():
            self.assertLess(time.monotonic(), deadline, self.played.said()[-3000:])
            time.sleep(0.02)

    def games(self) -> List[Dict[str, Any]]:
        return list(self.played.manifests().values())

    def wait_for(self, room: "subprocess.Popen[bytes]") -> None:
        self.until(lambda: room.poll() is not None)

    def is_playing(self) -> bool:
        """Whether a game has begun that is not finished."""
        last = sorted(self.played.path.glob("*.journal"))[-1:]
        return any(not journal.with_suffix(".json").exists()
                   and '"tick":0' in journal.read_text("latin-1") for journal in last)

    def test_games_in_a_row_whatever_agents_and_a_kill_do(self) -> None:
        """Five games: agents stay, crash and hang, and the room is killed in a game."""
        room = self.room("--pace", 25)
        self.guest("seat3")
        hanging, crashing = self.guest("seat5", "hang"), self.guest("seat4", "crash")
        self.until(lambda: len(self.games()) >= 2 and self.is_playing())
        room.kill()
        room.wait()
        kept = self.games()
        hanging.kill()
        again = self.room("--games", 5 - self.played.count())
        self.wait_for(again)
        games = self.games()
        self.assertEqual((again.returncode, len(games), games[:len(kept)]), (0, 5, kept))
        self.assertEqual(len({game["seed"] for game in games}), 5)
        self.assertEqual({game["players"][3] for game in games}, {"seat3"})
        self.assertEqual({game["players"][0] for game in games}, {"house mine"})
        self.assertTrue({"seat4", "seat5"} <= {name for game in games for name in game["players"]})
        self.assertIsNotNone(crashing.poll())
        self.assertEqual(list(self.played.wrongs()), [])
        self.assertTrue(any(map(any, (game["scores"] for game in games))))

    def test_teams_have_their_words_and_their_names(self) -> None:
        teams, slips = self.folder / "teams.csv", self.folder / "slips.html"
        teams.write_text("Red Foxes,r3d\nBlue\n")
        room = self.room("--games", 2, "--teams", teams, "--slips", slips)
        self.guest("r3d")
        self.wait_for(room)
        games = self.games()
        self.assertEqual([sum(name == "redfoxes" for name in game["players"]) for game in games],
                         [1, 1])
        self.assertNotEqual(*[game["players"].index("redfoxes") for game in games])
        for file in self.played.path.glob("000*"):
            self.assertNotIn(b"r3d", file.read_bytes(), file)
        self.assertIn("r3d", slips.read_text())

    def test_the_page_has_the_standings_then_the_game_and_its_scores_before_the_room_ends(
            self) -> None:
        page = free_port()
        room = self.room("--page", page, "--games", 2, "--pace", 40)
        self.until(lambda: "waits for guests" in self.played.said())
        phases: List[str] = []
        for state in self.states(page):
            if not phases:
                self.guest("seat1")
            if phases[-1:] != [state["phase"]]:
                phases.append(state["phase"])
            if state["phase"] == "room" and state["table"]:
                self.assertEqual({row[1] for row in state["table"]}, {"seat1", "house mine"})
            if state["phase"] == "running":
                self.assertIn("seat1", [agent["name"] for agent in state["agents"]])
        self.assertEqual((phases[0], phases[-1]), ("room", "over"), phases)
        self.assertIn("running", phases)
        self.assertEqual([agent["score"][-1] for agent in state["agents"]], self.played.scores(2))
        self.wait_for(room)

    def states(self, page: int) -> Iterator[Dict[str, Any]]:
        self.until(lambda: cases.is_listening(page))
        link = self.enter(socket.create_connection(("127.0.0.1", page)))
        link.settimeout(MOST)
        link.sendall(b"GET /events HTTP/1.1\r\n\r\n")
        with link.makefile("rb") as lines:
            for line in lines:
                if line.startswith(b"data: {"):
                    yield json.loads(line[6:])

    def test_a_terminal_that_is_held_does_not_hold_the_room(self) -> None:
        reading, writing = os.pipe()
        self.addCleanup(os.close, reading)
        os.set_blocking(writing, False)
        with contextlib.suppress(BlockingIOError):
            while True:
                os.write(writing, b"." * 4096)
        os.set_blocking(writing, True)
        self.room(out=writing)
        os.close(writing)
        self.guest("seat1")
        self.until(lambda: len(self.games()) >= 2)

    def test_ctrl_c_closes_the_room_after_its_game(self) -> None:
        room = self.room("--pace", 30)
        self.guest("seat1")
        journal = self.played.path / "0001.journal"
        self.until(lambda: journal.exists() and '"tick":3' in journal.read_text("latin-1"))
        room.send_signal(signal.SIGINT)
        self.wait_for(room)
        self.assertEqual(len(self.games()), 1)
        self.assertIn("the room closes after this game", self.played.said())
