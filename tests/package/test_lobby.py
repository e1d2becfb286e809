"""The lobby before the game and in it, with links of every kind, before a server that answers by
no rules."""

import contextlib
import io
import json
import os
import socket
import time
import unittest
from types import SimpleNamespace
from typing import Any, Dict, Iterator, List, Optional, Sequence, Tuple
from unittest import mock

from geesefuton.hosting import events, lobby
from geesefuton.hosting.control import Phase
from geesefuton.hosting.events import End
from geesefuton.hosting.lobby import Lobby
from geesefuton.hosting.settings import LobbySettings
from geesefuton.link import Link, LinkError, Unanswered
from geesefuton.processes import free_port
from tests.package.lobbies import GAME, MOST, WORDS, Agent, Case, Host

NEVER = float("inf")


class Links(Case):
    def test_before_the_game_a_second_link_waits_for_the_end_of_the_first(self) -> None:
        with mock.patch("geesefuton.hosting.seats.PROBED", 0.3):
            host = Host(self.folder, start=None, pace=1000)
            self.agents(host, "seat1")[0].close()  # a seat that was left can be taken
            host.wait(events.Departed)
            first = self.agents(host, "seat0")[0]
            second = Agent(host.port, "seat0")
            self.assertEqual(second.line(), "refused taken")  # the first is live
            second.close()
        third = Agent(host.port, "seat0")
        first.close()
        self.leave_all(host, [third, *self.agents(host, *WORDS[1:])])
        self.assertEqual(len(host.of(events.Ended)), 8)
        self.assertEqual(host.of(events.Began)[0].seats, tuple(range(8)))

    def test_lines_before_the_game_are_asked_in_it(self) -> None:
        host = Host(self.folder, pace=1000)
        agent = Agent(host.port, first=b"hello seat2\nown 1\nown 2\nown 3")
        agent.socket.shutdown(socket.SHUT_WR)
        self.assertEqual(agent.welcome()[0], "welcome 2")
        self.assertEqual([agent.line() for _ in range(3)], ["@1 own 0 ()", "@2 own 0 ()", ""])
        agent.close()
        host.wait(events.Departed)
        self.assertEqual(host.finish()["seat2"], End.GONE)
        self.assertEqual(self.asked(), ["2 own 1", "2 own 2"])
        self.assertEqual([event.lines for event in host.of(events.Ended) if event.seat == 2], [2])

    def test_coming_again(self) -> None:
        host = Host(self.folder, pace=1000)
        agent, early = self.agents(host, "seat0", "seat2")
        host.wait(events.Began)
        welcome = agent.welcome()
        early.welcome()
        early.quit()
        gone = Agent(host.port, "seat2")
        self.assertEqual(gone.line(), "refused taken")  # its session is over
        journal = self.folder / "my.journal"
        for asked, end in enumerate((Agent.close, Agent.reset), 1):
            agent.send(b"bid 5 ((1 1))\nown 6\n")  # the reply to the bid will be owed
            self.until(lambda: journal.read_text().count('{"a":0,"q":"bid') == asked)
            end(agent)
            agent = Agent(host.port, "seat0")
            self.assertEqual(agent.welcome(), welcome)
            self.assertEqual(agent.ask("own 17"), "@17 own 0 ()")
        late = Agent(host.port, "seat7")
        self.assertEqual(late.welcome()[0], "welcome 7")
        self.assertEqual(late.ask("own 4"), "@4 own 0 ()")
        gone.close()
        for link in (agent, late):
            link.quit()
        reasons = host.finish()
        self.assertEqual([reasons[word] for word in ("seat0", "seat2", "seat5", "seat7")],
                         [End.LEFT, End.LEFT, End.ABSENT, End.LEFT])
        self.assertEqual([event.word for event in host.of(events.Rejoined)], ["seat0"] * 2)
        self.assertEqual(host.of(events.Arrived)[-1].word, "seat7")
        self.assertEqual([line for line in self.asked() if line.startswith("0 bid")],
                         ["0 bid 5 ((1 1))"] * 2)

    @unittest.skipUnless(hasattr(socket, "TCP_USER_TIMEOUT"), "the system has no such time")
    def test_one_that_reads_nothing_for_long_loses_its_link_and_may_reconnect(self) -> None:
        with mock.patch("geesefuton.hosting.links.UNACKNOWLEDGED", 300):
            host = Host(self.folder, start=0.2, pace=1000)
            deaf = self.agents(host, "seat0")[0]
            deaf.socket.setsockopt(socket.SOL_SOCKET, socket.SO_RCVBUF, 2048)
            deaf.send(b"own 1\n" * 1000)
            host.wait(events.Departed)
        again = Agent(host.port, "seat0")
        self.assertEqual(again.welcome()[0], "welcome 0")
        again.quit()
        self.assertEqual(host.finish()["seat0"], End.LEFT)

    @mock.patch("geesefuton.hosting.links.UNACKNOWLEDGED", int(1000 * MOST))
    def test_one_that_never_reads_holds_nobody(self) -> None:
        host = Host(self.folder, pace=1000, linger=0.2)
        deaf, agent = self.agents(host, "seat0", "seat1")
        long = b"y" * 499 + b"\n"
        host.wait(events.Began)
        deaf.send(b"own 1\n")
        deaf.socket.settimeout(0.5)
        with self.assertRaises(OSError):
            while True:
                deaf.send(long * 100)
        agent.welcome()
        for number in range(40):
            self.assertEqual(agent.ask(f"own {number}"), f"@{number} own 0 ()")
        agent.quit()
        journal = self.folder / "my.journal"
        # So that the log comes in pieces.
        self.until(lambda: journal.read_bytes().count(b"\n") >= 500)
        self.assertEqual(host.finish()["seat0"], End.HUNG)
        lines = (self.folder / "my.log").read_text().split("\n")
        self.assertEqual((lines[0], lines[-2:]), ("taclog 1", ["end", ""]))
        self.assertEqual((lines.count("0 " + "y" * 499), lines.count("1 own 1")),
                         (len(lines) - 45, 1))

    def test_ticks_come_by_the_pace_and_links_are_ended_later(self) -> None:
        start = time.time()
        host = Host(self.folder, pace=10, linger=0.25, start=0.3)
        agent = self.agents(host, "seat2")[0]
        self.assertLessEqual(0.29, host.wait(events.Began)[0].at - start)
        agent.send(b"own 1\nown 2\nown 3\n")
        self.assertEqual(host.end(), {word: End.HUNG if word == "seat2" else End.ABSENT
                                      for word in WORDS})
        ticks = host.of(events.Ticked)
        numbers = [event.tick for event in ticks]
        self.assertEqual((numbers, numbers[-1]), (sorted(set(numbers)), 54))
        self.assertTrue(1 <= numbers[0] and len(numbers) > 1)
        self.assertEqual(ticks[-1].lines, (0, 0, 3, 0, 0, 0, 0, 0))
        lines = [json.loads(line) for line in (self.folder / "my.journal").read_text().splitlines()]
        self.assertEqual((lines[0]["pace"], lines[0]["form"]), (10, "words"))
        told = [(line["tick"], line["t"]) for line in lines if "tick" in line]
        self.assertEqual([tick for tick, _ in told], [0, *numbers])
        self.assertTrue(all(10 * tick - 5 <= at for tick, at in told))
        ended = {line["end"]: line["t"] for line in lines if "end" in line}
        self.assertGreater(ended[3], 530)  # 54 ticks
        self.assertGreater(ended[2], 780)
        self.assertEqual({**lines[-1], "t": 0}, {"over": 0, "t": 0})

    def test_orders_come_at_any_time(self) -> None:
        reading, writing = os.pipe()
        with open(reading, "r", encoding="ascii") as orders, open(writing, "wb") as keys:
            host = Host(self.folder, start=None, pace=1000, linger=0, orders=orders)
            keys.write(b"with seat5\nwho\nwithout seat3\n\n")
            keys.flush()
            host.wait(events.Began)
            self.assertEqual([event.text for event in host.of(events.Answered)],
                             [f"{word} is missing" for word in WORDS])
            late = Agent(host.port, "seat2")
            self.addCleanup(late.close)
            host.wait(events.Arrived)
            for order in (b"without seat1\nwithout", b" seat2\nwithout seat1 seat2\n"):
                keys.write(order)
                keys.flush()
            host.wait(events.Waived, 3)
            host.wait(events.Warned, 2)
            for word in ("seat1", "seat3"):
                given_up = Agent(host.port, word)
                self.addCleanup(given_up.close)
                self.assertEqual(given_up.line(), "refused taken")
            self.assertEqual(late.welcome()[0], "welcome 2")  # whoever is here stays
            self.assertEqual(late.ask("own 1"), "@1 own 0 ()")
            late.quit()
            self.assertEqual(host.finish()["seat2"], End.LEFT)
        self.assertEqual([event.word for event in host.of(events.Waived)],
                         ["seat3", "seat1", "seat2"])
        self.assertIn("`help` for the list", host.of(events.Warned)[0].text)
        # And from a text in memory.
        host = self.ended(start=None, journal=None, orders=io.StringIO("help\nwho seat1\n\n"))
        self.assertTrue(host.of(events.Answered)[0].text.startswith("who: "))
        self.assertEqual([event.text for event in host.of(events.Warned)][:1], ["expected `who`"])


class Rejoining(Case):
    """Links of the package that are lost."""

    def setUp(self) -> None:
        super().setUp()
        self.tell = self.patch("link.tell")

    @contextlib.contextmanager
    def playing(self, losses: int, **how: Any) -> Iterator[Link]:
        """The link of seat 3, whose agent is told so often that it was lost, and leaves."""
        host = Host(self.folder, start=0.2, pace=1000)
        with Link.greet("localhost", host.port, "seat3", **how) as agent:
            yield agent
            agent.quit()
        self.assertIs(host.finish()["seat3"], End.LEFT)
        self.assertEqual(self.tell.call_count, losses)

    def test_a_link_that_was_cut_is_back(self) -> None:
        with self.playing(1) as agent:
            self.assertEqual(agent.own(4), 0)
            agent.stream.shutdown(socket.SHUT_RDWR)
            self.assertEqual(agent.holding(5).at, 5)
            self.assertEqual((agent.agent, len(agent.clients)), (3, 8))
        self.assertEqual(self.asked().count("3 own 5"), 1)

    def test_a_link_whose_network_is_gone_is_back_once_the_lobby_gives_it_up(self) -> None:
        with self.playing(1, limit=0.1) as agent, \
                agent.stream.dup():  # the lobby does not hear that the link has ended
            with self.assertRaises(Unanswered):
                agent.bid(4, (1, 50))  # its reply takes longer
            agent.stream.settimeout(MOST)
            self.assertEqual(agent.holding(4).at, 4)

    def test_a_server_that_answers_slowly_is_no_lost_link(self) -> None:
        self.set(FAKE_SLOW="0.3")
        with self.playing(0, limit=20) as agent:
            self.assertEqual([agent.own(4), agent.own(5)], [0, 0])

    def test_after_the_game_it_is_told_that_the_link_was_closed(self) -> None:
        host = Host(self.folder, start=0.2, pace=1, linger=0)
        with Link.greet("localhost", host.port, "seat3") as agent:
            host.end()
            self.assertRaisesRegex(LinkError, "^seat3: the link was closed$", agent.own, 4)
        self.tell.assert_not_called()

    def test_a_server_that_hangs_is_given_up(self) -> None:
        self.set(FAKE_HANG="own 7")
        self.patch("link.REJOIN", 1.0)
        host = Host(self.folder, start=0.2, pace=1000)
        with Link.greet("localhost", host.port, "seat3", limit=0.2) as agent:
            self.assertEqual(agent.own(4), 0)
            self.assertRaisesRegex(LinkError, "^seat3: no reply within 0.2", agent.own, 7)
            self.assertRaisesRegex(LinkError, "^seat3: the link was closed$", agent.own, 4)
        host.lobby.control.stop()
        host.end()


class Beginning(Case):
    """When agents are no longer waited for, by a clock that moves only while they are."""

    def begins(self, *here: Tuple[float, float], full: float = NEVER, asked: float = NEVER,
               **settings: Any) -> Optional[float]:
        """After how many seconds the game begins; None if it does not within 100.

        Args:
            here: From when to when some agent is here.
            full: When all are here.
            asked: When the host begins the game.
            settings: What the lobby is told.
        """
        made = Lobby(LobbySettings(GAME, 0, 5, None, **settings))
        self.addCleanup(made._listeners[0].close)
        clock = SimpleNamespace(now=0.0)

        def turn(seconds: float) -> None:
            self.assertTrue(0 < seconds <= 0.2, seconds)
            clock.now += seconds
            made.control.is_begin_asked = clock.now >= asked
            game.is_stopped = clock.now > 100

        seats = SimpleNamespace(
            missing=lambda: [] if clock.now >= full else ["seat7"],
            is_anybody_here=lambda: any(first <= clock.now < last for first, last in here))
        game = SimpleNamespace(relay=SimpleNamespace(seats=seats), turn=turn, is_stopped=False)
        with mock.patch.object(lobby.time, "monotonic", lambda: clock.now):
            made._gather(game)  # type: ignore[arg-type]
        return None if game.is_stopped else clock.now

    def test_when_it_begins(self) -> None:
        """The lobby looks five times a second."""
        here = [(20.0, NEVER)]
        rows: List[Tuple[Dict[str, Any], Sequence[Tuple[float, float]], Optional[float]]] = [
            # All are waited for, or the host says so.
            ({}, [(1, NEVER)], None), ({"full": 40}, [(1, NEVER)], 40), ({"asked": 7}, [], 7),
            # A time counts from the beginning.
            ({"start": 12.5}, [], 12.5), ({"start": 0.0}, [], 0),
            ({"start": 30.0, "full": 20}, [(1, NEVER)], 20),
            # A wait counts from the first guest who is still there.
            ({"wait": 10.0}, [], None), ({"wait": 10.0}, here, 30),
            ({"wait": 10.0}, [(20, 25), (26, NEVER)], 36), ({"wait": 10.0}, [(20, 29)], None),
            ({"wait": 10.0, "full": 22}, here, 22), ({"wait": 0.0}, [(5, NEVER)], 5),
            # Of both the earlier one counts.
            ({"wait": 10.0, "start": 25.0}, here, 25), ({"wait": 10.0, "start": 35.0}, here, 30)]
        for given, here, due in rows:
            with self.subTest(given=given, here=here):
                begins = self.begins(*here, **given)
                if begins is None or due is None:
                    self.assertEqual(begins, due)
                else:
                    self.assertTrue(due - 1e-6 <= begins <= due + 0.4, begins)


class Hosting(Case):
    def test_seats_are_taken_by_the_hosts_words_and_told_by_those_of_the_game(self) -> None:
        host = Host(self.folder, start=None, pace=1000, keys={"red7k": 3, "blue2": 0},
                    orders=io.StringIO())
        other = Agent(host.port, "seat3")
        self.addCleanup(other.close)
        self.assertEqual(other.line(), "refused wrongword")
        agents = self.agents(host, "red7k", "blue2")
        self.assertEqual([event.word for event in host.of(events.Arrived)], ["seat3", "seat0"])
        host.lobby.control.go_on()
        self.assertEqual([agent.welcome()[0] for agent in agents], ["welcome 3", "welcome 0"])
        for agent in agents:
            agent.quit()
        host.finish()
        for file in ("my.journal", "my.log"):
            self.assertNotIn("red7k", (self.folder / file).read_text())

    def test_what_the_page_says_is_told_at_once(self) -> None:
        page = mock.Mock(look=mock.Mock(side_effect=["the page has ended", *[""] * 9999]))
        made = self.patch("hosting.lobby.PageProcess", return_value=page)
        host = Host(self.folder, start=None, page=free_port())
        self.assertEqual([event.text for event in host.wait(events.Warned)], ["the page has ended"])
        self.assertIs(host.lobby.control.phase, Phase.GATHERING)
        host.lobby.control.stop()
        host.end()
        self.assertEqual(made.call_args[0][2:4], (WORDS, host.lobby.port))

    def test_how_long_a_link_may_say_nothing(self) -> None:
        """Ten seconds, or two ticks if they are longer, unless told otherwise."""
        for pace, silence, due in ((1000, 10.0, 10.0), (5000, 10.0, 10.0), (10000, 10.0, 20.0),
                                   (60000, 10.0, 120.0), (60000, 300.0, 300.0), (100, 0.0, 0.2)):
            settings = LobbySettings(GAME, 0, pace, None, silence=silence)
            self.assertAlmostEqual(settings.longest_silence(), due)
        self.assertEqual(LobbySettings(GAME, 0, 1, None).longest_silence(), 10.0)
        made = self.patch("hosting.lobby.Relay", side_effect=lobby.Relay)
        self.ended(patience=7.0, silence=9.0)
        words, _, _, journal, patience, silence = made.call_args[0]
        self.assertEqual((words, journal.file, patience, silence),
                         (WORDS, self.folder / "my.journal", 7.0, 9.0))
