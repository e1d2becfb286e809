"""Games in turns, before a program that answers by no rules, and before the real one."""

import os
import random
import socket
import threading
import time
from multiprocessing.connection import Connection, Pipe
from pathlib import Path
from typing import Any, List, Optional, Sequence, Tuple, Type
from unittest import mock

from geesefuton import program
from geesefuton.experiments import turns
from geesefuton.experiments.turns import Turner, TurnServer
from geesefuton.hosting import events
from geesefuton.hosting.events import End, Event
from geesefuton.hosting.lobby import Lobby
from geesefuton.hosting.settings import LobbySettings
from geesefuton.link import Link
from geesefuton.records.games import TICKS, read_game
from geesefuton.records.order import first_seat, order_of_turn
from tests.package.run_cases import PlaceCase, read_csv
from tests.package.helpers import TOP, needs_step, run

GAME = TOP / "examples" / "first.game"
FIRST = first_seat(read_game(GAME.read_text()).text())  # the seat that is asked first
FAKE = Path(__file__).resolve().parent / "fake_tac.py"
WORDS = [f"seat{number}" for number in range(8)]
MOST = 200.0  # seconds that anything may take, on a machine that is busy with other work


class Agent:
    """A link that sends all its lines at once."""

    def __init__(self, port: int, word: str, *lines: str) -> None:
        self.socket = socket.create_connection(("localhost", port))
        self.socket.settimeout(MOST)
        self.lines = self.socket.makefile("rb")
        self.send(f"hello {word}", *lines)

    def send(self, *lines: str) -> None:
        self.socket.sendall("".join(line + "\n" for line in lines).encode("latin-1"))

    def line(self) -> str:
        return self.lines.readline().decode("ascii").rstrip("\n")

    def rest(self) -> List[str]:
        """What it is still sent, until its link is ended."""
        return [line.decode("ascii").rstrip("\n") for line in self.lines]

    def close(self) -> None:
        self.lines.close()
        self.socket.close()


class Host:
    """A lobby in a thread."""

    def __init__(self, folder: Path, count: int = 1, patience: float = MOST,
                 others: Optional[Connection] = None, **more: Any) -> None:
        self.log = folder / "my.log"
        settings = {"port": 0, "pace": 1, "log": self.log, "linger": MOST, "start": MOST, **more}
        self.server = TurnServer(count, patience, others)
        self.lobby = Lobby(LobbySettings(game=GAME, **settings), self.server)
        self.port, self.told = self.lobby.port, list[Event]()
        self.status, self.fault = -1, ""
        self.thread = threading.Thread(target=self.run, daemon=True)
        self.thread.start()

    def run(self) -> None:
        try:
            self.status = self.lobby.run(self.told.append)
        except program.ProgramError as fault:
            self.fault = str(fault)

    @property
    def passed(self) -> List[int]:
        return [turner.passed for turner in self.server.turners]

    def of(self, kind: Type[Event]) -> List[Any]:
        return [event for event in self.told if isinstance(event, kind)]

    def wait(self, kind: Type[Event], count: int = 1) -> None:
        deadline = time.monotonic() + MOST
        while len(self.of(kind)) < count:
            assert time.monotonic() < deadline, (kind, self.told)
            time.sleep(0.005)

    def end(self) -> List[End]:
        """Waits until the game is over, and gives why each seat's part was."""
        self.thread.join(MOST)
        assert not self.thread.is_alive(), self.told
        reasons = {event.seat: event.reason for event in self.of(events.Ended)}
        return [reasons[seat] for seat in sorted(reasons)]

    def asked(self) -> List[str]:
        """The lines that were asked, and the ticks, by the log."""
        return self.log.read_text("latin-1").split("\n")[1:-2]


class Case(PlaceCase):
    def setUp(self) -> None:
        super().setUp()
        self.enter(mock.patch.dict(os.environ, {"TAC": str(FAKE)}))
        self.patch("hosting.lobby.ENDING", 0.05)  # agents here keep their links

    def agents(self, host: Host, *lines: Sequence[str]) -> List[Agent]:
        """An agent for each seat, in an order of their own, with the lines that it sends."""
        agents = [Agent(host.port, WORDS[seat], *lines[seat]) for seat in (3, 1, 0, 7, 6, 2, 5, 4)]
        self.addCleanup(lambda: [agent.close() for agent in agents])
        return [agents[place] for place in (2, 1, 5, 0, 7, 6, 4, 3)]

    def played(self, *lines: Sequence[str], first: End = End.LEFT, **more: Any
               ) -> Tuple[Host, List[Agent]]:
        """A game of such agents that is over, in which all have left but perhaps the first."""
        host = Host(self.place, **more)
        agents = self.agents(host, *lines)
        self.assertEqual(host.end(), [first] + [End.LEFT] * 7)
        return host, agents


def due(count: int, *lines: Sequence[str]) -> List[str]:
    """The script of agents that send these lines: in each turn one of each, `count` turns before
    each tick."""
    script, tick = [], 0
    longest = max(map(len, lines))
    for place in range(max(longest, count * TICKS)):
        turn = place - count * tick
        script += [f"{seat} {lines[seat][place]}" for seat in order_of_turn(tick, turn, FIRST)
                   if place < len(lines[seat])]
        if turn == count - 1 and tick < TICKS:
            script, tick = [*script, "tick"], tick + 1
    return script


class Turns(Case):
    def test_each_turn_begins_one_seat_later(self) -> None:
        host, _ = self.played(*[["own 1"] * 4 + ["quit"]] * 8, count=2)
        asked = " ".join(line.split(" ")[0] for line in host.asked()[:34])
        self.assertEqual(FIRST, 7)
        self.assertEqual(asked, "7 0 1 2 3 4 5 6 0 1 2 3 4 5 6 7 tick "
                                "0 1 2 3 4 5 6 7 1 2 3 4 5 6 7 0 tick")

    def test_one_request_of_each_in_a_turn(self) -> None:
        for count in (1, 3):
            own = [[f"own {(seat + place) % 28}" for place in range(5 * seat)] + ["quit"]
                   for seat in range(8)]
            host, agents = self.played(*own, count=count)
            self.assertEqual(host.asked(), due(count, *own))
            script = b"".join(host.server.script).decode("ascii").splitlines()
            self.assertEqual(script, host.asked())
            self.assertEqual((host.status, host.passed), (0, [0] * 8))
            for seat, agent in enumerate(agents):
                told = agent.rest()
                self.assertEqual((told[0], len(told[:10])), (f"welcome {seat}", 10))
                self.assertEqual(told[10:], [f"@{line.split()[1]} own 0 ()"
                                             for line in own[seat][:-1]] + ["bye"])

    def test_the_welcome_is_that_of_the_game_file(self) -> None:
        _, agents = self.played(*[["quit"]] * 8)
        lines = GAME.read_text().split("\n")
        own = ["welcome 5", *(line for line in lines if line.startswith("endow 5 ")),
               *(line for line in lines if line.startswith("client 5 ")), "bye"]
        self.assertEqual((agents[5].rest(), len(own)), (own, 11))

    def test_an_agent_that_takes_its_time_is_waited_for(self) -> None:
        host = Host(self.place, 2)
        lines = [["own 1", "own 2", "own 3", "quit"]] * 8
        agents = self.agents(host, *[[] if seat in (2, 7) else lines[seat] for seat in range(8)])
        for line in lines[0]:
            for seat in (7, 2):  # not in the order of the seats
                time.sleep(0.02)
                agents[seat].send(line)
        self.assertEqual(host.end(), [End.LEFT] * 8)
        self.assertEqual((host.asked(), host.passed), (due(2, *lines), [0] * 8))

    def test_after_each_tick_it_waits_until_others_have_had_it(self) -> None:
        ours, theirs = Pipe()
        with ours, theirs:
            host = Host(self.place, others=theirs)
            agents = self.agents(host, *[["own 1", "own 2", "quit"]] * 8)
            for tick in range(1, TICKS + 1):
                host.wait(events.Ticked, tick)
                self.assertEqual(len(host.of(events.Ticked)), tick)
                ours.send(tick)
            self.assertEqual(host.end(), [End.LEFT] * 8)
        self.assertEqual(agents[0].rest()[10:], ["@1 own 0 ()", "@2 own 0 ()", "bye"])

    def test_one_that_was_waited_for_often_enough_is_waited_for_no_more(self) -> None:
        ours, theirs = socket.socketpair()
        with ours, theirs:
            turner, game, server = Turner(0, theirs), mock.Mock(is_stopped=False), TurnServer(1, 5)
            turner.waited = turns.SILENCES * 5.0
            self.assertIsNone(server._wait(game, turner))
            self.assertEqual((turner.passed, game.turn.call_args), (1, mock.call(0.0)))
            ours.sendall(b"own 1\n")
            self.assertEqual(server._wait(game, turner), b"own 1")
        self.assertGreater(turner.waited, turns.SILENCES * 5.0)

    def test_ticks_tell_how_many_lines_each_has_sent(self) -> None:
        host, _ = self.played(["own 1"] * 7 + ["quit"], *[["own 0", "quit"]] * 7, count=2)
        ticks = host.of(events.Ticked)
        self.assertEqual([event.tick for event in ticks], list(range(1, TICKS + 1)))
        self.assertEqual([event.lines[0] for event in ticks[:6]], [2, 4, 6, 8, 8, 8])
        self.assertEqual(ticks[-1].lines, (8,) + (2,) * 7)

    def test_who_says_nothing_is_passed_over_until_it_speaks(self) -> None:
        host = Host(self.place, patience=0.1)
        agents = self.agents(host, ["own 1"] * 900 + ["quit"], [], *[["quit"]] * 6)
        for _ in range(10):
            agents[1].line()  # the welcome
        while not host.passed[1]:
            time.sleep(0.001)
        agents[1].send("own 2")
        self.assertEqual(agents[1].line(), "@2 own 0 ()")
        self.assertEqual(host.end(), [End.LEFT, End.HUNG] + [End.LEFT] * 6)
        asked = host.asked()
        self.assertEqual([line for line in asked if line != "1 own 2"],
                         due(1, ["own 1"] * 900 + ["quit"], [], *[["quit"]] * 6))
        self.assertGreater(host.passed[1], 0)
        self.assertEqual(host.passed[:1] + host.passed[2:], [0] * 7)

    def test_a_silent_agent_costs_its_patience_once(self) -> None:
        began = time.monotonic()
        host = Host(self.place, 5, patience=0.3)
        self.agents(host, *[[]] * 8)
        self.assertEqual(host.end(), [End.HUNG] * 8)
        self.assertEqual(host.passed, [5 * TICKS + 1] * 8)
        self.assertLess(time.monotonic() - began, MOST / 4)
        self.assertEqual(host.asked(), ["tick"] * TICKS)

    def test_lines_that_are_refused_take_a_turn(self) -> None:
        lines = [["x" * 513, "hey", "z" * 512, "h\xe9y", "y" * 600, "own 3", "quit", "own 4"],
                 *[["own 1", "quit"]] * 7]
        host, agents = self.played(*lines)
        self.assertEqual(agents[0].rest()[10:], ["no toolong", "no syntax", "no syntax",
                                                 "no syntax", "no toolong", "@3 own 0 ()", "bye"])
        # One that is too long is no line of a script.
        own = [["", "hey", "z" * 512, "h\xe9y", "", "own 3", "quit"], *lines[1:]]
        self.assertEqual(host.asked(), [line for line in due(1, *own) if line != "0 "])
        self.assertEqual(host.of(events.Ended)[-1].lines, 8)

    def test_silence_is_counted_from_the_last_answer(self) -> None:
        ours, theirs = socket.socketpair()
        with ours, theirs:
            turner = Turner(0, theirs)
            for _ in range(2):
                turner.heard, began = 0.0, time.monotonic()
                ours.sendall(b"own 1\n")
                self.assertEqual((turner.take(), turner.heard), (b"own 1", 0.0))
                self.assertFalse(turner.is_silent)
                turner.pass_over()
                self.assertTrue(turner.is_silent)
                turner.say(b"@1 own 0 ()\n")
                self.assertGreaterEqual(turner.heard, began)
                self.assertEqual(ours.recv(99), b"@1 own 0 ()\n")
                self.assertIsNone(turner.take())
            self.assertEqual((turner.asked, turner.passed), (2, 2))

    def test_json(self) -> None:
        lines = ['{"do":"own","auction":3}', '{"auction":4,"do":"own"}', "own 3", '{"do":"quit"}']
        host, agents = self.played(lines, *[['{"do":"quit"}']] * 7, form="json")
        self.assertEqual(agents[0].rest()[10:], [
            '{"at":3,"own":0,"points":[]}', '{"at":4,"own":0,"points":[]}', '{"no":"syntax"}',
            '{"bye":true}'])
        self.assertEqual(host.asked(), due(1, ["own 3", "own 4", "", "quit"], *[["quit"]] * 7))


class Ends(Case):
    def test_agents_that_leave_crash_and_come_again(self) -> None:
        orders, writing = os.pipe()
        with open(orders, encoding="ascii") as reading, open(writing, "wb", 0) as orders_file:
            host = Host(self.place, orders=reading)
            agents = self.agents(host, ["own 1"], ["own 2"], *[["own 0", "quit"]] * 6)
            self.addCleanup(host.lobby.control.stop)
            agents[0].close()
            agents[1].close()
            host.wait(events.Departed, 2)
            again = Agent(host.port, "seat0", "own 4", "quit")
            self.addCleanup(again.close)
            orders_file.write(b"without seat1\n")
            self.assertEqual(host.end(), [End.LEFT, End.GONE] + [End.LEFT] * 6)
        self.assertEqual(again.rest()[10:], ["@4 own 0 ()", "bye"])
        self.assertEqual(host.passed, [0] * 8)
        self.assertEqual(host.asked(), due(1, ["own 1", "own 4", "quit"], ["own 2"],
                                           *[["own 0", "quit"]] * 6))

    def test_seats_that_nobody_takes(self) -> None:
        host = Host(self.place, patience=0.05, start=0.1)
        agent = Agent(host.port, "seat4", *["own 1"] * 3, "quit")
        self.addCleanup(agent.close)
        reasons = host.end()
        self.assertEqual(reasons, [End.ABSENT] * 4 + [End.LEFT] + [End.ABSENT] * 3)
        self.assertEqual(host.asked()[:2], ["4 own 1", "tick"])
        self.assertTrue(all(passed for seat, passed in enumerate(host.passed) if seat != 4))

    def test_an_agent_that_never_quits(self) -> None:
        self.assertEqual((turns.MOST_TURNS, turns.LAST_TURNS), (1000, 1024))
        self.enter(mock.patch.object(turns, "LAST_TURNS", 20))
        host, _ = self.played(["own 1"] * 90, *[["quit"]] * 7, first=End.HUNG)
        self.assertEqual(host.asked().count("0 own 1"), TICKS + 20)
        self.assertEqual(host.passed, [0] * 8)

    def test_after_the_last_tick_nobody_is_waited_for_longer_than_asked(self) -> None:
        host, agents = self.played(["own 1"] * TICKS, *[["quit"]] * 7, first=End.HUNG, linger=0.1)
        self.assertEqual(host.passed, [1] + [0] * 7)
        self.assertEqual(len(agents[0].rest()), 10 + TICKS)

    def test_one_that_goes_after_the_last_tick_has_left(self) -> None:
        host = Host(self.place)
        agents = self.agents(host, ["own 1"] * (TICKS + 1), *[["quit"]] * 7)
        host.wait(events.Ticked, TICKS)
        agents[0].close()
        self.assertEqual((host.end(), host.status), ([End.LEFT] * 8, 0))

    def test_a_program_that_ends_before_the_game(self) -> None:
        with mock.patch.dict(os.environ, {"FAKE_EARLY": "7"}):
            host = Host(self.place)
            agents = self.agents(host, *[["own 1"]] * 8)
            host.end()
        self.assertIn("exit status 7 (memory was refused)", host.fault)
        self.assertEqual(agents[0].rest()[10:], [])
        self.assertFalse(host.log.exists())

    def test_an_interrupt(self) -> None:
        host = Host(self.place)
        agents = self.agents(host, *[["own 1"] if seat == FIRST else [] for seat in range(8)])
        self.assertEqual([agents[FIRST].line() for _ in range(11)][10], "@1 own 0 ()")
        host.lobby.control.stop()
        host.end()
        self.assertEqual((host.status, agents[FIRST].rest(), host.log.exists()), (130, [], False))


class Wanderer(threading.Thread):
    """An agent whose requests follow from what it was told, and which takes some time for them."""

    def __init__(self, host: Host, seat: int, form: str, hurry: random.Random) -> None:
        super().__init__(daemon=True)
        self.host, self.seat, self.form, self.hurry = host, seat, form, hurry
        self.told: List[str] = []
        self.start()

    def run(self) -> None:
        link = Link.greet("localhost", self.host.port, WORDS[self.seat], self.form)
        told = str(link.endow)
        for _ in range(60):
            time.sleep(self.hurry.choice([0, 0, 0.002]))
            told = link.ask(self.request(random.Random(told)))
            self.told.append(told)
        link.quit()

    def request(self, source: random.Random) -> str:
        good = source.choice([0, 4, 8, 12, 17, 27, 28])
        units = -1 if good > 15 and source.random() < 0.5 else source.randrange(3)
        bid = f"bid {good} (({units} {source.randrange(1, 300)}))"
        return source.choice([bid, bid, f"own {good}", f"withdraw {good}", f"quote {good}", "cash"])


@needs_step
class Real(PlaceCase):
    """Games with the program."""

    def play(self, form: str, hurry: int) -> bytes:
        """The log of a game with eight wanderers."""
        host = Host(self.place, form=form)
        agents = [Wanderer(host, seat, form, random.Random(hurry + seat)) for seat in range(8)]
        self.assertEqual((host.end(), host.passed), ([End.LEFT] * 8, [0] * 8), host.fault)
        for agent in agents:
            agent.join()
            self.assertEqual(len(agent.told), 60)
        return host.log.read_bytes()

    def test_the_same_game_however_long_agents_take(self) -> None:
        log = self.play("words", 1)
        self.assertEqual(log.split(b"\n")[:2], [b"taclog 1", b"play"])
        self.assertEqual(program.audit(GAME, log), "sound")
        self.assertGreater(log.count(b"\ntrade "), 8)
        self.assertEqual(self.play("words", 100), log)
        self.assertEqual(self.play("json", 200), log)

    def test_agents_of_the_examples_in_a_tournament(self) -> None:
        agents = [TOP / "examples" / "agents" / f"{name}.py"
                  for name in ("trader", "planner", "baseline")]
        words = ["--seed", "1", "--games", "1", "--turns", "2", *agents]
        played = []
        for number, more in enumerate(([], ["--patience", "99"])):
            out = self.place / str(number)
            done = run("experiments.tournament", "--out", out, *more, *words)
            self.assertEqual(done.returncode, 0, done.stderr)
            played.append(read_csv((out / "scores.csv").read_text()))
        self.assertEqual(played[0], played[1])
        self.assertEqual({(row["end"], row["kind"]) for row in played[0]}, {("played", "turns2")})
