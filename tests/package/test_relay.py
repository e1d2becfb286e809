"""The relay by itself, before a server that the test plays."""

import contextlib
import json
import socket
import struct
import time
from typing import Any, Dict, List, Optional, Type
from unittest import mock

from geesefuton.hosting import events
from geesefuton.hosting.events import End, Event
from geesefuton.hosting.journal import Journal
from geesefuton.hosting.links import MOST_SAID, OuterLink, Session
from geesefuton.network.loop import REST
from geesefuton.hosting.relay import MOST_EACH, MOST_HELD, NEAR_MOST, UNREAD, Relay
from geesefuton.hosting.seats import Seat, State
from geesefuton.network.gate import LINE, PARTING
from geesefuton.records.dialects import MOST_LINE
from tests.package.cases import MOST, FolderCase

WORDS = [f"seat{number}" for number in range(8)]
WELCOME = b"welcome\nand more\n"
OWN = b"@0 own 0 ()\n"
MUCH = b"x" * (8 << 20)  # more than the system keeps


class Case(FolderCase):
    """Agents on two seats, whose game has begun."""

    def setUp(self) -> None:
        super().setUp()
        both = socket.has_dualstack_ipv6()  # then it is one for IPv4 and IPv6, as the lobby's
        self.listener = self.enter(socket.create_server(
            ("", 0), family=socket.AF_INET6 if both else socket.AF_INET, dualstack_ipv6=both))
        self.journal = Journal(self.folder / "journal", self.fail)
        self.addCleanup(self.journal.close)
        self.told: List[Event] = []
        self.relay = Relay(WORDS, [self.listener], self.told.append, self.journal, MOST, MOST)
        self.addCleanup(self.relay.close)
        self.agents = [self.connect(f"hello seat{number}\n".encode()) for number in range(2)]
        while len(self.relay.seats.missing()) > 6:
            self.relay.turn(MOST)
        pairs = [socket.socketpair() for _ in WORDS]
        self.servers = [self.enter(server) for _, server in pairs]
        for server in self.servers:
            server.settimeout(MOST)
        self.relay.begin([Session(seat, link, WELCOME)
                          for seat, (link, _) in zip(self.relay.seats.seats, pairs)])
        for agent in self.agents:
            self.turn_until(agent, WELCOME)

    def connect(self, first: bytes, address: str = "127.0.0.1") -> socket.socket:
        """A new link from this address of the machine, which sends something."""
        link: socket.socket = self.enter(
            socket.create_connection((address, self.listener.getsockname()[1])))
        link.settimeout(MOST)
        link.sendall(first)
        return link

    def comes(self, first: bytes, answer: bytes = WELCOME) -> socket.socket:
        """A new link that sends something, and is answered."""
        link = self.connect(first)
        self.turn_until(link, answer)
        return link

    def turn_until(self, link: socket.socket, text: bytes) -> None:
        """Lets the relay pass lines on until a link has been sent a text."""
        got, deadline = b"", time.monotonic() + MOST
        link.setblocking(False)
        while got != text:
            self.assertEqual((got, text.startswith(got)), (got, True))
            self.assertLess(time.monotonic(), deadline, (got, text))
            self.relay.turn(0.01)
            with contextlib.suppress(BlockingIOError):
                got += link.recv(len(text) - len(got))
        link.setblocking(True)

    def turn_until_told(self, kind: Type[Event], count: int = 1) -> List[Any]:
        deadline = time.monotonic() + MOST
        while len(self.of(kind)) < count:
            self.assertLess(time.monotonic(), deadline, self.told)
            self.relay.turn(0.01)
        return self.of(kind)

    def turns(self) -> None:
        """Lets the relay do all that it can do now."""
        for _ in range(8):
            self.relay.turn(0.002)

    def pass_time(self, seconds: float) -> None:
        self.relay.pass_time(time.monotonic() + seconds)

    def received(self, link: socket.socket) -> Optional[bytes]:
        """What a link is sent now: nothing at its end, and None if it goes on."""
        self.turns()
        link.setblocking(False)
        try:
            return link.recv(1 << 16)
        except BlockingIOError:
            return None
        except ConnectionError:
            return b""
        finally:
            link.setblocking(True)

    def is_sent_nothing(self, link: socket.socket) -> bool:
        return not self.received(link)

    def has_ended(self, link: socket.socket) -> bool:
        return self.received(link) == b""

    def answer(self, number: int, line: bytes, reply: bytes = OWN) -> None:
        self.turn_until(self.servers[number], line)
        self.servers[number].sendall(reply)

    def ask(self, number: int, line: bytes, reply: bytes = OWN) -> None:
        self.agents[number].sendall(line)
        self.answer(number, line, reply)
        self.turn_until(self.agents[number], reply)

    def depart(self, number: int) -> None:
        self.agents[number].close()
        self.turn_until_told(events.Departed)

    def of(self, kind: Type[Event]) -> List[Any]:
        return [event for event in self.told if isinstance(event, kind)]

    def ends(self) -> Dict[str, End]:
        return {event.word: event.reason for event in self.of(events.Ended)}

    def lines(self) -> List[Dict[str, Any]]:
        return [json.loads(line) for line in self.journal.file.read_text().splitlines()]

    def hold(self, data: bytes) -> OuterLink:
        """The first agent is to be sent something more."""
        link = self.relay.links[0]
        link.held += data
        self.relay.loop.watch(link)
        return link


class Relaying(Case):
    # Lines from agents to the server, and back.

    def test_a_reply_is_written_before_it_is_passed_on(self) -> None:
        write, kept = Relay._write, list[int]()

        def watched(relay: Relay, link: OuterLink) -> None:
            if link.held:
                kept.append(sum('"r":' in line for line in self.journal._held))
            write(relay, link)

        with mock.patch.object(Relay, "_write", watched):
            for agent in self.agents:
                agent.sendall(b"own 5\n")
            for number in range(2):
                self.answer(number, b"own 5\n")
            for agent in self.agents:
                self.turn_until(agent, OWN)
        self.assertEqual(kept, [0, 0])

    def test_and_so_it_is_if_its_agent_had_not_read_what_came_before(self) -> None:
        agent = self.agents[0]
        agent.sendall(b"own 5\n")
        self.turn_until(self.servers[0], b"own 5\n")
        self.hold(b"@4 own 0 ()\n")  # as if the link had taken no more of it until now
        self.servers[0].sendall(OWN)
        # The server is heard before the link is written to.
        ready = sorted(self.relay.loop._select.select(MOST), key=lambda each: each[1])
        self.assertEqual(len(ready), 2)
        with mock.patch.object(self.relay.loop._select, "select", lambda timeout: ready), \
                mock.patch.object(self.journal, "flush", side_effect=OSError("power is lost")), \
                self.assertRaisesRegex(OSError, "power is lost"):
            self.relay.turn(MOST)
        agent.setblocking(False)
        self.assertRaises(BlockingIOError, agent.recv, 4096)
        self.turn_until(agent, b"@4 own 0 ()\n" + OWN)

    def test_a_line_that_is_too_long_may_come_in_pieces(self) -> None:
        link, lines = next(iter(self.relay.links.values())), list[bytes]()
        for piece in (b"own 4\n" + b"x" * (MOST_LINE + 9), b"x" * 9, b"x\nown 5\n",
                      b"y" * (MOST_LINE + 9), b"\nown"):
            link.feed(piece)
        while link.has_line():
            lines.append(link.take())
        # What makes it too long is kept, and the lines around it are whole.
        self.assertEqual(lines, [b"own 4", b"x" * (MOST_LINE + 1), b"own 5",
                                 b"y" * (MOST_LINE + 1)])
        self.assertEqual(link.said, b"own")

    def test_lines_go_one_at_a_time(self) -> None:
        self.agents[0].sendall(b"own 1\nown 2\nown")
        self.turn_until(self.servers[0], b"own 1\n")
        self.assertTrue(self.is_sent_nothing(self.servers[0]))
        self.pass_time(0)  # what is not answered is written soon
        self.assertEqual(self.lines()[-1], {"a": 0, "q": "own 1"})
        self.servers[0].sendall(OWN)
        self.turn_until(self.servers[0], b"own 2\n")
        self.turn_until(self.agents[0], OWN)
        self.servers[0].sendall(b"@1 own 0 ()\n")
        self.assertTrue(self.is_sent_nothing(self.servers[0]))  # the last line has no end
        self.turn_until(self.agents[0], b"@1 own 0 ()\n")
        self.assertTrue(self.is_sent_nothing(self.agents[1]))

    def test_nothing_is_asked_for_one_that_does_not_read(self) -> None:
        link = self.hold(MUCH)
        self.turns()
        self.assertGreater(len(link.held), MOST_HELD)
        self.agents[0].sendall(b"own 5\n")
        self.assertTrue(self.is_sent_nothing(self.servers[0]))
        self.turn_until(self.agents[0], MUCH)
        self.turn_until(self.servers[0], b"own 5\n")

    def test_one_that_sends_much_is_read_as_it_is_answered(self) -> None:
        line, count = b"y" * 499 + b"\n", 800
        self.agents[0].sendall(line * count)
        self.turn_until(self.servers[0], line)
        self.turns()
        self.assertLess(len(self.relay.links[0].said), 2 * MOST_SAID + 1)
        for _ in range(count - 1):
            self.servers[0].sendall(b"no syntax\n")
            self.turn_until(self.servers[0], line)
        self.servers[0].sendall(b"no syntax\n")
        self.turn_until(self.agents[0], b"no syntax\n" * count)

    def test_a_reply_goes_to_the_link_that_asked_or_to_nobody(self) -> None:
        for number in range(2):
            agent, server = self.agents[number], self.servers[number]
            agent.sendall(b"bid 8 ((1 1))\nown 8\n")
            self.turn_until(server, b"bid 8 ((1 1))\n")
            agent.setsockopt(socket.SOL_SOCKET, socket.SO_LINGER, struct.pack("ii", 1, 0))
            agent.close()
            self.turn_until_told(events.Departed, number + 1)
            again = self.connect(b"hello seat%d\nown 9\nown 10\n" % number)
            if number:
                again.shutdown(socket.SHUT_WR)  # it is answered though it ends its side
            self.turn_until(again, WELCOME)
            self.assertEqual(len(self.of(events.Rejoined)), number + 1)
            self.assertTrue(self.is_sent_nothing(server))  # the bid has no answer yet
            server.sendall(b"@3 taken 0 0\n")
            self.turn_until(server, b"own 9\n")
            self.assertTrue(self.is_sent_nothing(again))
            server.sendall(OWN)
            self.answer(number, b"own 10\n")
            self.turn_until(again, OWN * 2)

    def test_one_that_ends_its_side_is_still_answered(self) -> None:
        self.agents[0].sendall(b"own 1\nown 2\nown 3")
        self.agents[0].shutdown(socket.SHUT_WR)
        for line in (b"own 1\n", b"own 2\n"):
            self.turn_until(self.servers[0], line)
            self.turns()
            self.assertEqual(self.of(events.Departed), [])
            self.assertEqual(self.relay.loop._select.select(0.0), [])  # its end is heard once
            self.servers[0].sendall(OWN)
        self.turn_until(self.agents[0], OWN * 2)
        self.assertEqual(self.turn_until_told(events.Departed)[0].word, "seat0")
        self.assertTrue(self.has_ended(self.agents[0]))
        self.assertTrue(self.is_sent_nothing(self.servers[0]))  # and is not told of an end

    def test_one_that_ends_its_side_is_sent_all_that_it_has_not_read(self) -> None:
        self.hold(MUCH)
        self.turns()
        self.agents[0].shutdown(socket.SHUT_WR)
        self.turns()
        self.turn_until(self.agents[0], MUCH)
        self.turn_until_told(events.Departed)
        self.assertTrue(self.has_ended(self.agents[0]))

    # What is told and written when links and seats come to an end.

    def test_a_game_in_the_journal_and_in_events(self) -> None:
        self.ask(0, b"own 5\n")
        self.depart(1)
        self.relay.waive(self.relay.seats.seats[7])
        self.ask(0, b"quit\n", b"bye\n")
        self.relay.release()
        here = [{"here": number, "from": "127.0.0.1"} for number in range(2)]
        lines = self.lines()
        self.assertEqual(lines[:4], [*here, {"begin": [0, 1]}, {"tick": 0, "t": 0}])
        self.assertTrue(all(0 <= line["t"] < 1000 * MOST for line in lines[4:] if "q" not in line))
        self.assertEqual([{**line, "t": 1} for line in lines[4:]], [
            {**line, "t": 1} for line in (
                {"a": 0, "q": "own 5"}, {"a": 0, "r": "@0 own 0 ()"}, {"gone": 1}, {"without": 7},
                {"end": 7, "why": "absent"}, {"a": 0, "q": "quit"}, {"a": 0, "r": "bye"},
                {"end": 0, "why": "left"}, {"end": 1, "why": "gone"}, *(
                    {"end": number, "why": "absent"} for number in range(2, 7)))])
        told = [event.__class__(0, *list(vars(event).values())[1:]) for event in self.told]
        self.assertEqual(told, [
            events.Arrived(0, 0, "seat0", "127.0.0.1"), events.Arrived(0, 1, "seat1", "127.0.0.1"),
            events.Began(0, (0, 1)), events.Departed(0, 1, "seat1"), events.Waived(0, "seat7"),
            events.Ended(0, 7, "seat7", End.ABSENT, 0), events.Ended(0, 0, "seat0", End.LEFT, 2),
            events.Ended(0, 1, "seat1", End.GONE, 0),
            *(events.Ended(0, seat, f"seat{seat}", End.ABSENT, 0) for seat in range(2, 7))])
        for event in self.told:
            self.assertLess(abs(event.at - time.time()), MOST)

    def test_a_game_without_a_journal(self) -> None:
        self.relay.journal = Journal(None, self.fail)
        self.ask(0, b"own 5\n")
        self.depart(1)
        self.comes(b"hello seat1\n")
        self.relay.waive(self.relay.seats.seats[7])
        self.pass_time(0)
        self.relay.release()
        self.ask(0, b"quit\n", b"bye\n")
        self.relay.finish()
        self.assertEqual(self.ends(), {"seat0": End.LEFT, "seat1": End.HUNG, **{
            word: End.ABSENT for word in WORDS[2:]}})
        self.assertEqual(self.of(events.Warned), [])

    def test_who_sent_only_lines_that_were_refused(self) -> None:
        self.ask(0, b"hey\n", b"no syntax\n")
        self.ask(1, b"hey\n", b"no syntax\n")
        self.ask(1, b"own 1\n")
        late = self.connect(b"hello seat2\nquit\n")
        self.answer(2, b"quit\n", b"bye\n")
        self.turn_until(late, WELCOME + b"bye\n")
        for number in range(2):
            self.ask(number, b"quit\n", b"bye\n")
        self.assertEqual(self.ends(), {"seat0": End.REFUSED, "seat1": End.LEFT, "seat2": End.LEFT})
        self.assertEqual([event.lines for event in self.of(events.Ended)], [1, 2, 3])
        self.assertEqual(self.servers[0].recv(9), b"")  # it is told that no more will come

    def test_lines_are_counted_over_all_links_of_a_seat(self) -> None:
        self.ask(0, b"own 1\n")
        self.depart(0)
        self.agents[0] = self.comes(b"hello seat0\nown 2\nown")
        self.answer(0, b"own 2\n")
        self.turn_until(self.agents[0], OWN)
        self.agents[0].sendall(b" 3\n")
        self.turn_until(self.servers[0], b"own 3\n")
        self.relay.finish()
        self.assertEqual([event.lines for event in self.of(events.Ended)][:2], [3, 0])

    def test_nothing_is_asked_after_quit(self) -> None:
        self.agents[0].sendall(b"quit\nown 1\n")
        self.answer(0, b"quit\n", b"bye\n")
        self.turn_until(self.agents[0], b"bye\n")
        self.agents[0].sendall(b"own 2\n")
        self.turns()
        self.assertEqual(self.servers[0].recv(99), b"")
        self.assertEqual([line["q"] for line in self.lines() if "q" in line], ["quit"])
        self.assertEqual(self.of(events.Warned), [])

    def test_after_the_last_tick_one_that_ends_its_link_has_left_and_then_all_links_are_ended(
            self) -> None:
        stranger = self.connect(b"hello")
        self.turns()
        self.relay.release()
        self.assertEqual(set(self.ends()), set(WORDS[2:]))
        late = self.comes(b"hello seat5\n", b"refused taken\n")  # its session is over
        self.agents[0].close()
        self.turn_until_told(events.Ended, 7)
        self.relay.finish()
        self.assertEqual((self.ends()["seat0"], self.ends()["seat1"]), (End.LEFT, End.HUNG))
        self.assertEqual(self.of(events.Departed), [])
        self.assertTrue(all(map(self.has_ended, (stranger, late, self.agents[1]))))
        self.assertFalse(self.relay.is_done())
        for link in (stranger, late, *self.agents, *self.servers):
            link.close()
        self.turns()
        self.assertTrue(self.relay.is_done())
        self.assertEqual(len(self.of(events.Ended)), 8)

    def test_the_server_ends(self) -> None:
        self.ask(0, b"own 1\n")
        self.depart(1)
        self.servers[0].close()
        self.assertTrue(self.has_ended(self.agents[0]))
        for server in self.servers[1:]:
            server.close()
        self.turns()
        self.assertFalse(self.relay.is_done())  # an agent has its link
        self.agents[0].close()
        self.turns()
        self.assertTrue(self.relay.is_done())
        self.relay.settle()
        self.assertEqual(self.ends(), {"seat0": End.LEFT, "seat1": End.GONE, **{
            word: End.ABSENT for word in WORDS[2:]}})

    # A fault about one seat.

    def test_a_link_that_is_gone_is_no_fault_of_the_game(self) -> None:
        second = self.connect(b"hello seat0\n")
        self.turns()
        self.relay._drop(self.relay.links[0])  # as if its end had been missed
        self.pass_time(MOST + 1)
        self.turn_until(second, WELCOME)
        third = self.connect(b"hello seat1\n")
        self.turns()
        heir = self.relay.seats.seats[1].heir
        assert heir is not None
        self.relay._drop(self.relay.links[heir])
        self.pass_time(MOST + 1)
        self.assertTrue(self.has_ended(third))
        self.assertIs(self.relay.seats.seats[1].state, State.FREE)
        self.comes(b"hello seat1\n")

    def test_the_server_ends_one_session_and_the_others_go_on(self) -> None:
        self.servers[0].close()
        self.turn_until_told(events.Ended)
        self.assertTrue(self.has_ended(self.agents[0]))
        self.comes(b"hello seat0\n", b"refused taken\n")
        event, = self.of(events.Refused)
        self.assertEqual((event.answer, event.line), ("taken", "hello seat0"))
        self.assertEqual(self.of(events.Rejoined), [])
        self.pass_time(MOST + 1)
        self.ask(1, b"own 1\n")
        self.assertEqual(self.ends(), {"seat0": End.LEFT})
        self.assertEqual(self.of(events.Warned), [])

    def test_an_error_about_a_seat_or_a_stranger_is_not_anothers(self) -> None:
        seconds = [self.connect(b"hello seat%d\n" % number) for number in range(2)]
        self.turns()
        give = Relay._give

        def fails(relay: Relay, seat: Seat, *more: Any) -> None:
            if seat.number == 0:
                raise RuntimeError("a fault")
            give(relay, seat, *more)

        with mock.patch.object(Relay, "_give", fails):
            self.pass_time(MOST + 1)
        self.turn_until(seconds[1], WELCOME)
        self.assertIn("a fault", self.of(events.Warned)[0].text)
        self.assertTrue(self.has_ended(seconds[0]))
        self.comes(b"hello seat0\n")
        with mock.patch.object(self.relay.seats, "admit", side_effect=RuntimeError("another one")):
            link = self.connect(b"hello seat2\n")
            self.assertIn("another one", self.turn_until_told(events.Warned, 2)[1].text)
        self.assertTrue(self.has_ended(link))
        self.agents[1] = seconds[1]
        self.ask(1, b"own 1\n")

    def test_a_handler_that_fails_is_told_once_and_tried_again(self) -> None:
        ours, theirs = map(self.enter, socket.socketpair())
        calls: List[bytes] = []

        def fails() -> None:
            calls.append(ours.recv(1))
            raise RuntimeError("a fault")

        theirs.sendall(b"abc")
        self.relay.loop.attend(ours, fails)
        for number in range(1, 4):
            self.turns()
            self.assertEqual(len(calls), number)
            self.pass_time(REST + 0.1)
        self.relay.loop.forget(ours)
        warned, = self.of(events.Warned)
        self.assertIn("a fault", warned.text)
        self.ask(0, b"own 1\n")

    # Links that have no seat.

    def test_those_that_are_refused(self) -> None:
        for first, answer in ((b"hello seat9 " + b"z" * 90 + b"\n", "syntax"),
                              (b"hello seat2\r\n", "syntax"), (b"x" * 600, "syntax"),
                              (b"GET / HTTP/1.1\n\n", "syntax"), (b"hello seat9\n", "wrongword"),
                              (b"hello seat9\n" + b"y" * 99999, "wrongword")):
            link = self.comes(first, f"refused {answer}\n".encode())
            self.assertTrue(self.has_ended(link))
            event = self.of(events.Refused)[-1]
            self.assertEqual((event.source, event.answer), ("127.0.0.1", answer))
            self.assertTrue(first.decode().startswith(event.line) and 1 <= len(event.line) < 99)
            if answer == "wrongword":
                link.close()  # it goes
                self.pass_time(PARTING + 0.1)
                self.assertEqual(len(self.relay.links), 2)
                continue
            with contextlib.suppress(OSError):
                link.sendall(b"hello seat2\n")  # it is not read any further
            self.turns()
            self.assertEqual((len(self.of(events.Arrived)), len(self.relay.links)), (2, 3))
            self.pass_time(PARTING - 0.5)
            self.assertEqual(len(self.relay.links), 3)
            self.pass_time(PARTING + 0.1)
            self.assertEqual(len(self.relay.links), 2)
        self.assertEqual(self.of(events.Warned), [])

    def test_idle_links_at_one_of_several_listeners_take_no_place_of_another(self) -> None:
        listeners = [self.enter(socket.create_server(("127.0.0.1", 0))) for _ in range(2)]
        relay = self.relay = Relay(WORDS, listeners, self.told.append, self.journal, MOST, MOST)
        self.addCleanup(relay.close)
        links = [self.enter(socket.create_connection(listener.getsockname()))
                 for listener, count in zip(listeners, (1, MOST_EACH + 9)) for _ in range(count)]
        while len(self.of(events.Lost)) < 9:
            self.relay.turn(MOST)
        self.assertEqual(len(relay.links), 1 + MOST_EACH)
        links[0].sendall(b"hello seat3\n")
        self.assertEqual(self.turn_until_told(events.Arrived, 3)[-1].seat, 3)

    def test_a_second_link_waits_until_the_first_speaks_or_is_silent(self) -> None:
        second = self.connect(b"hello seat0\nown 4\n")
        self.assertTrue(self.is_sent_nothing(second))
        self.pass_time(MOST - 5)
        self.assertTrue(self.is_sent_nothing(second))
        self.ask(0, b"own 1\n")
        self.turn_until(second, b"refused taken\n")
        third = self.connect(b"hello seat0\nown 4\n")
        self.turns()
        self.pass_time(MOST + 1)
        self.turn_until(third, WELCOME)
        self.turn_until(self.servers[0], b"own 4\n")
        self.assertTrue(self.has_ended(self.agents[0]))
        self.assertEqual(len(self.of(events.Rejoined)), 1)

    def test_one_that_waits_has_the_seat_once_the_first_ends(self) -> None:
        second = self.connect(b"hello seat0\nown 4\n")
        self.assertTrue(self.is_sent_nothing(second))
        self.agents[0].close()
        self.turn_until(second, WELCOME)
        self.turn_until(self.servers[0], b"own 4\n")
        self.assertEqual(len(self.of(events.Rejoined)), 1)
        waits = self.connect(b"hello seat1\n")
        self.turns()
        waits.close()  # and the first keeps its seat
        self.turns()
        self.ask(1, b"own 1\n")
        waits = self.connect(b"hello seat1\nown 4\n")
        self.turns()
        waits.shutdown(socket.SHUT_WR)  # nor has it the seat if it has asked something
        self.turns()
        self.assertTrue(self.has_ended(waits))
        self.ask(1, b"own 1\n")
        self.assertEqual([event.word for event in self.of(events.Departed)], ["seat0"])

    def test_one_that_says_nothing_is_let_go_and_one_that_goes_without_a_line_is_told(self) -> None:
        link = self.connect(b"hello seat2")
        self.turns()
        self.pass_time(MOST - 5)
        self.assertFalse(self.has_ended(link))
        self.pass_time(MOST + 1)
        self.assertTrue(self.has_ended(link))
        event, = self.of(events.Lost)
        self.assertEqual((event.source, event.why),
                         ("127.0.0.1", f"it sent no line for {MOST:g} seconds"))
        self.assertFalse(self.has_ended(self.agents[0]))
        self.connect(b"hello").close()
        self.assertEqual(self.turn_until_told(events.Lost, 2)[1].why,
                         "it ended before its first line")
        self.assertEqual(self.of(events.Departed), [])

    def test_the_eldest_goes_if_there_are_too_many_of_a_network(self) -> None:
        links = []
        for _ in range(MOST_EACH):
            links.append(self.connect(b""))
            self.turns()
        self.assertFalse(any(map(self.has_ended, links)))
        links.append(self.connect(b"hello seat2\n"))
        self.turn_until_told(events.Arrived, 3)
        self.assertEqual([self.has_ended(link) for link in links],
                         [True, *[False] * MOST_EACH])
        self.assertEqual(self.of(events.Lost)[0].why, "too many links had no seat")
        links.append(self.connect(b""))  # one has its seat by now
        self.assertFalse(any(map(self.has_ended, links[1:])))

    def test_a_right_word_waits_as_long_as_a_wrong_one_after_many_guesses(self) -> None:
        for _ in range(8):
            self.comes(b"hello seat9\n", b"refused wrongword\n")
        links = [self.connect(f"hello {word}\n".encode()) for word in ("seat2", "seat0", "no")]
        self.assertTrue(all(map(self.is_sent_nothing, links)))
        self.assertEqual(len(self.of(events.Arrived)), 2)
        links[1].close()  # its word is not looked at any longer
        self.turns()
        self.pass_time(20 * LINE)
        self.turn_until(links[0], WELCOME)
        self.turn_until(links[2], b"refused wrongword\n")

    def test_who_comes_and_goes_is_seated_more_and_more_slowly(self) -> None:
        for _ in range(60):
            self.connect(b"hello seat2\n").close()
            self.turns()
        self.assertLess(len(self.of(events.Arrived)), 45)

    def test_no_link_is_taken_for_a_while_if_no_more_files_may_be_opened(self) -> None:
        self.relay._accept(self.listener, "")  # as if a link had been there a moment before
        link = self.connect(b"hello seat2\n")
        with mock.patch.object(socket.socket, "accept", side_effect=OSError(24, "Too many files")):
            self.turns()
        self.assertEqual(self.relay.loop._select.select(0.01), [])  # it is not tried all the time
        self.pass_time(REST + 0.1)
        self.turn_until(link, WELCOME)

    def test_a_machine_that_has_gone_is_noticed_after_some_ten_seconds(self) -> None:
        link = self.relay.links[0].socket
        self.assertTrue(link.getsockopt(socket.SOL_SOCKET, socket.SO_KEEPALIVE))
        self.assertTrue(link.getsockopt(socket.IPPROTO_TCP, socket.TCP_NODELAY))
        if hasattr(socket, "TCP_KEEPIDLE"):
            idle, between, probes = (link.getsockopt(socket.IPPROTO_TCP, getattr(socket, name))
                                     for name in ("TCP_KEEPIDLE", "TCP_KEEPINTVL", "TCP_KEEPCNT"))
            self.assertTrue(8 <= idle + between * probes <= 15)
        if hasattr(socket, "TCP_USER_TIMEOUT"):  # and so is one with something on its way
            self.assertTrue(8000 <= link.getsockopt(socket.IPPROTO_TCP, socket.TCP_USER_TIMEOUT)
                            <= 15000)

    def test_an_agent_that_does_not_read_is_told_of_once_until_it_has_read_all(self) -> None:
        link = self.relay.links[0]
        for end, buffer in ((link.socket, socket.SO_SNDBUF), (self.agents[0], socket.SO_RCVBUF)):
            end.setsockopt(socket.SOL_SOCKET, buffer, 1 << 16)  # the system does not enlarge it

        def is_stuck() -> bool:
            self.relay.turn(0.01)
            return link.stuck is not None

        for count in range(3):
            self.hold(MUCH[:1 << 20])
            self.until(is_stuck, len(link.held))
            self.relay.pass_time((link.stuck or 0.0) + UNREAD - 1)
            self.assertEqual(len(self.of(events.Warned)), max(0, count - 1))
            for seconds in (1, 2) if count else ():
                self.pass_time(UNREAD + seconds)
                self.assertEqual(len(self.of(events.Warned)), count)
            self.turn_until(self.agents[0], MUCH[:1 << 20])
            self.pass_time(UNREAD + 1)  # one that has read all is not told of
            self.assertEqual(len(self.of(events.Warned)), count)
        self.assertIn("seat0 has not read its replies", self.of(events.Warned)[0].text)

    def test_a_seat_is_told_of_before_its_lines_are_used_up(self) -> None:
        self.assertEqual(NEAR_MOST, 60000)
        with mock.patch("geesefuton.hosting.relay.NEAR_MOST", 3):
            for number in range(5):
                self.ask(0, b"own %d\n" % number)
                self.assertEqual(len(self.of(events.Warned)), int(number >= 2))
            self.ask(1, b"own 5\n")
        event, = self.of(events.Warned)
        self.assertRegex(event.text, "seat0 has sent 3 lines; it gets no replies beyond 65,536")
