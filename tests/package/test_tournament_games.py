"""Tournaments by the program, with agents that fail in every way."""

import json

from geesefuton.experiments.results import Outcome
from geesefuton.experiments.runs import read_scores
from tests.package.run_cases import PlaceCase
from tests.package.helpers import needs_program, needs_step, run

# An agent that buys the trip of its first client, and one that fails in another of four ways each
# time that it is started.
BUYER = """
import sys, time
from geesefuton.link import Link, inbound, outbound, room
link = Link.greet(sys.argv[1], int(sys.argv[2]), sys.argv[3])
client = link.clients[0]
link.bid(inbound(client.arrive), (1, 600))
link.bid(outbound(client.depart), (1, 600))
for night in client.nights():
    link.bid(room(0, night), (1, 200))
while not link.quote(0).closed:
    time.sleep(0.05)
link.quit()
"""
FAILING = """
import os, socket, sys, time
from geesefuton.link import Link
def made(folder):
    try:
        os.mkdir(folder)
    except FileExistsError:
        return False
    return True
word, count = sys.argv[3], 0
while not made(f"{sys.argv[0]}.{count}"):
    count += 1
if count % 4 == 0:
    sys.exit(0)
if count % 4 == 1:
    raise ValueError("before the game")
if count % 4 == 2:
    link = socket.create_connection((sys.argv[1], int(sys.argv[2])))
    link.sendall(b"HELLO %s\\n" % word.encode())
    time.sleep(60)
link = Link.greet(sys.argv[1], int(sys.argv[2]), word)
link.bid(0, (1, 600))
os.abort()
"""
# An agent that buys a seat at once, and one that does the same but fails where the seat was dear.
# In four games 32 of them start, so they load no more than they need.
SEAT_BUYER = """
import socket, sys
lines = socket.create_connection((sys.argv[1], int(sys.argv[2]))).makefile("rw")
def ask(line):
    lines.write(line + "\\n")
    lines.flush()
    return lines.readline()
ask("hello " + sys.argv[3])
client = [lines.readline() for _ in range(9)][1].split()
ask(f"bid {int(client[3]) - 1} ((1 600))")
if sys.argv[0].endswith("quits.py") and int(ask("cash").split()[2]) < -{dear}:
    sys.exit(1)
while not ask("quote 0").endswith("closed\\n"):
    pass
ask("quit")
"""


@needs_step
class InTurns(PlaceCase):
    def test_an_agent_gains_nothing_by_failing_where_it_does_badly(self) -> None:
        names = ("agents/plays.py", "agents/quits.py")
        for name in names:
            self.write(name, SEAT_BUYER.replace("{dear}", "325"))
        done = run("experiments.tournament", *names, "--games", "4", "--turns", "2", "--seed", "1",
                   "--out", "run", "--summary", "s.json", cwd=self.folder)
        self.assertEqual(done.returncode, 0, done.stderr)
        value = json.loads((self.folder / "s.json").read_text())
        plays, quits = sorted(value["agents"], key=lambda agent: agent["agent"])
        for end in ("crashed", "played"):
            self.assertGreater(quits["ends"][end], 0)
        self.assertEqual(quits["score"], plays["score"])
        self.assertGreater(quits["played"]["mean"], plays["played"]["mean"])
        self.assertEqual(value["differences"][0]["score"], {"mean": 0.0, "half": 0.0, "count": 2})


@needs_program
class Real(PlaceCase):
    def test_a_game_with_agents_that_fail(self) -> None:
        self.write("buyer.py", BUYER)
        self.write("failing.py", FAILING)
        # Each of two has four seats. Not kept apart, the failing ones count themselves.
        done = run("experiments.tournament", "failing.py", "buyer.py", "--no-apart", "--games", "2",
                   "--pace", "25", "--start", "4", "--after", "0.5", "--out", "run", "--summary",
                   "s.json", cwd=self.folder)
        self.assertEqual(done.returncode, 0, done.stderr)
        rows = read_scores(self.folder / "run").rows
        ends = sorted(row.end.value for row in rows if row.agent == "failing")
        self.assertEqual(ends, sorted(2 * ["absent", "crashed", "crashed", "refused"]), done.stderr)
        self.assertEqual({(row.end, row.score == 0) for row in rows if row.agent == "buyer"},
                         {(Outcome.PLAYED, False)})
        first, second = json.loads((self.folder / "s.json").read_text())["agents"]
        self.assertEqual((first["agent"], second["ends"]),
                         ("buyer", {"absent": 2, "crashed": 4, "refused": 2}))
        games = self.folder / "run" / "games"
        self.assertTrue((games / "1.0.log").read_text().startswith("taclog 1\n"))
        self.assertRegex(done.stderr, "failing at seat [0-7] .failing[b-d]?. counts as crashed: "
                         "ended with status 1; its last line: ValueError: before the game")
        game = games / "1.1.game"
        for status, count, told in ((0, 2, ""), (1, 1, f"deals: {game}: it is not the game of the "
                                                       "secret\n")):
            made = run("experiments.deals_command", self.folder / "run")
            self.assertEqual((made.returncode, made.stdout, made.stderr), (
                status, f"{count} of 2 games are those of the secret\n", told))
            text = game.read_text()
            line = next(line for line in text.split("\n") if line.startswith("endow 3"))
            game.write_text(text.replace(line, f"endow 3 {'0 ' * 11}1"))
