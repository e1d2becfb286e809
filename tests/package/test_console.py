"""The host's commands: which lines come, when the lobby may read them, and what they do before a
relay whose agents have begun to play."""

import io
import os
import socket
import unittest
from collections import deque
from typing import Any, Callable, Deque, Dict, Optional
from unittest import mock

from geesefuton.hosting import events
from geesefuton.hosting.console import Console, NotDone, Orders
from geesefuton.hosting.control import Control, Phase
from geesefuton.hosting.seats import State
from tests.package import test_relay
from tests.package.cases import Case, FolderCase


def has_ipv6() -> bool:
    """Whether the machine has IPv6, and listeners for it and IPv4."""
    try:
        socket.create_server(("::1", 0), family=socket.AF_INET6).close()
    except OSError:
        return False
    return socket.has_dualstack_ipv6()


class Commands(test_relay.Case):
    def setUp(self) -> None:
        super().setUp()
        self.control = Control()
        self.console = Console(self.relay, self.control)

    def who(self, number: int) -> str:
        return self.console.obey("who").split("\n")[number]

    def test_help_lists_each_command(self) -> None:
        lines = self.console.obey("help").split("\n")
        names = [line.split(":")[0].split()[0] for line in lines]
        self.assertEqual(names, ["who", "begin", "without", "end", "ban", "allow", "word", "finish",
                                 "stop", "help"])

    def test_who_is_here_and_who_is_silent_for_ten_seconds_in_the_game(self) -> None:
        self.assertEqual(self.who(2), "seat2 is missing")
        seat = self.relay.seats.seats[0]
        for now, is_playing, due in ((109.0, True, ""), (110.0, True, ", silent for 10 s"),
                                     (125.5, True, ", silent for 26 s"), (900.0, False, "")):
            seat.heard, seat.playing = 100.0, is_playing
            with mock.patch("time.monotonic", lambda: now):
                self.assertEqual(self.who(0), f"seat0 is here from 127.0.0.1{due}")

    def test_who_else_asks_for_a_seat_and_which_are_over(self) -> None:
        self.connect(b"hello seat1\n")
        self.turns()
        self.assertEqual(self.who(1),
                         "seat1 is here from 127.0.0.1, and another link waits for its seat")
        self.console.obey("without seat5")
        self.assertEqual((self.who(4), self.who(5)), ("seat4 is missing", "seat5 has finished"))
        self.relay.links[0].source = "10.0.0.9"
        self.assertIn("from 10.0.0.9, but first came from 127.0.0.1", self.who(0))

    def test_a_link_that_is_ended_may_reconnect_unless_its_address_is_banned(self) -> None:
        self.assertEqual(self.console.obey("end seat1"), "closed the link of seat1")
        self.assertTrue(self.has_ended(self.agents[1]))
        self.connect(b"hello seat1\n")
        self.turn_until_told(events.Rejoined)
        self.assertEqual(self.console.obey("ban 127.0.0.1"),
                         "banned 127.0.0.1; links closed: 2")
        self.assertTrue(self.has_ended(self.connect(b"hello seat1\n")))
        self.assertEqual(len(self.of(events.Rejoined)), 1)
        with self.assertRaisesRegex(NotDone, "banned addresses: 10.0.0.1 127.0.0.1$"):
            self.console.obey("ban 10.0.0.1")
            self.console.obey("allow 10.0.0.2")
        self.assertEqual(self.console.obey("allow 127.0.0.1"),
                         "127.0.0.1 is no longer banned")
        self.connect(b"hello seat1\n")
        self.turn_until_told(events.Rejoined, 2)

    @unittest.skipUnless(has_ipv6(), "the machine has no IPv6")
    def test_addresses_of_both_kinds_are_banned_each_by_itself(self) -> None:
        for banned, other in (("127.0.0.1", "::1"), ("::1", "127.0.0.1")):
            before = self.connect(b"", banned)
            self.turns()
            self.console.obey(f"ban {banned}")
            kept = self.connect(b"", other)
            self.assertEqual([self.has_ended(link) for link in
                              (before, self.connect(b"", banned), kept)], [True, True, False])
            self.console.obey(f"allow {banned}")

    def test_an_address_or_network_is_the_same_however_it_is_written(self) -> None:
        for source, written, plain in (("2001:db8::7", "2001:DB8:0::7", "2001:db8::7"),
                                       ("10.0.0.9", "::FFFF:10.0.0.9", "10.0.0.9"),
                                       ("2001:db8::7", "2001:db8::1/64", "2001:db8::/64")):
            link = self.connect(b"hel")
            self.turns()
            self.relay.links[max(self.relay.links)].source = source
            self.relay.links[0].source = "2001:db8:0:1::7"
            self.assertEqual(self.console.obey(f"ban {written}"),
                             f"banned {plain}; links closed: 1")
            self.assertTrue(self.has_ended(link))
            self.assertFalse(any(map(self.has_ended, self.agents)))  # who has another address
            self.assertEqual(self.console.obey(f"allow {written}"),
                             f"{plain} is no longer banned")

    def test_a_new_word_is_not_that_of_a_link_that_waits_or_comes_with_the_old_one(self) -> None:
        thief = self.connect(b"hello seat1\n")
        self.turns()
        self.console.obey("word 1 red7k")
        self.console.obey("end seat1")
        self.turn_until(thief, b"refused taken\n")
        self.turn_until(self.connect(b"hello seat1\n"), b"refused wrongword\n")
        self.assertEqual(self.of(events.Rejoined), [])
        self.connect(b"hello red7k\n")
        self.turn_until_told(events.Rejoined)

    def test_a_seat_may_keep_its_word_and_have_that_of_nobody(self) -> None:
        for word in ("seat1", "red7k", "seat1"):
            self.assertEqual(self.console.obey(f"word seat1 {word}"),
                             "seat seat1 is now taken by its new word")
        with self.assertRaisesRegex(NotDone, "another seat's word"):
            self.console.obey("word seat2 seat1")

    def test_what_cannot_be_done(self) -> None:
        for line, told in (("dance", "unknown command 'dance'; type `help` for the list"),
                           ("end", "expected `end SEAT`"),
                           ("end 9", "there is no seat 9: give a seat's word, or its number 0 to "
                            "7"),
                           ("end seat4", "seat seat4 has no link"),
                           ("word seat1 seat2", "seat2 is another seat's word: choose a different "
                            "one"),
                           ("word 1 R", "R is not a seat word: use 1 to 16 letters a to z and "
                            "digits"),
                           ("allow 10.0.0.1", "10.0.0.1 is not banned; banned addresses: none"),
                           ("ban seat1", "seat1 is not an address; `who` shows the agents' "
                            "addresses"),
                           ("allow 10.0.0", "10.0.0 is not an address; `who` shows the agents' "
                            "addresses")):
            with self.assertRaisesRegex(NotDone, "^" + told.replace("|", ".") + "$"):
                self.console.obey(line)

    def test_begin_and_stop(self) -> None:
        self.assertEqual(self.console.obey("without 5"), "")
        self.assertIs(self.relay.seats.seats[5].state, State.OVER)
        for line in ("", "begin"):
            self.control.is_begin_asked = False
            self.console.obey(line)
            self.assertTrue(self.control.is_begin_asked)
        self.control.is_begin_asked, self.control.phase = False, Phase.PLAYING
        for line in ("", "begin", "finish"):
            self.console.obey(line)
        self.assertFalse(self.control.is_begin_asked or self.control.is_end_asked)
        self.control.phase = Phase.ENDING
        self.console.obey("")
        self.assertTrue(self.control.is_end_asked)
        self.console.obey("stop")
        self.assertTrue(self.control.is_stopped)

    def test_a_word_of_the_host_alone(self) -> None:
        self.relay.seats.own["k3x9"] = 4
        self.connect(b"hello k3x9\n")
        self.assertEqual(self.turn_until_told(events.Arrived, 3)[2].source, "the house")
        self.connect(b"hello seat5\n")
        self.assertEqual(self.turn_until_told(events.Arrived, 4)[3].source, "127.0.0.1")


class Controls(Case):
    """What may be asked of a hosted game from outside, and when."""

    def check(self, control: Control, *due: bool) -> None:
        """Whether a beginning, an end and a stop are asked for."""
        self.assertEqual((control.is_begin_asked, control.is_end_asked, control.is_stopped), due,
                         control.phase)

    def test_what_enter_means_at_each_time_and_what_an_end_and_a_stop_do(self) -> None:
        self.assertEqual(Control().phase, Phase.GATHERING)
        self.check(Control(), False, False, False)  # nothing is asked at first
        for phase in Phase:
            control = Control()
            control.phase = phase
            control.go_on()
            self.check(control, phase is Phase.GATHERING, phase is Phase.ENDING, False)
        control = Control()
        for ask, is_stopped in ((control.end, False), (control.stop, True)):
            for _ in range(2):  # what is asked stays asked
                ask()
                self.check(control, False, True, is_stopped)


class Selecting:
    """Stands for the relay: it keeps what is to be called if a file can be read."""

    def __init__(self) -> None:
        self.calls: Dict[int, Callable[[], None]] = {}

    def attend(self, number: int, call: Callable[[], None]) -> None:
        assert number not in self.calls, "it is attended already"
        self.calls[number] = call

    def forget(self, number: int) -> None:
        del self.calls[number]


class Waiting(Case):
    """Commands from a pipe, as from a terminal."""

    def setUp(self) -> None:
        self.number, other = os.pipe()
        self.other = self.enter(open(other, "wb", buffering=0))
        self.relay: Any = Selecting()
        self.got: Deque[str] = deque()
        self.orders = Orders(self.enter(open(self.number, encoding="utf-8")), self.got)

    def say(self, data: bytes) -> None:
        """What comes is read at once, if it is attended."""
        self.other.write(data)
        self.relay.calls[self.number]()

    def test_lines_come_whole_and_in_order(self) -> None:
        self.orders.look(self.relay)
        self.orders.look(self.relay)
        self.assertEqual(list(self.relay.calls), [self.number])
        for data, due in ((b"wit", []), (b"hout seat3\n", ["without seat3"]),
                          (b" without seat4 \r\n\nwith", ["without seat4", ""]),
                          (b"out seat5\n", ["without seat5"]), (b"\xff\n", ["\ufffd"])):
            self.say(data)
            self.assertEqual(list(self.got), due)
            self.got.clear()

    def test_the_end_of_what_is_read(self) -> None:
        self.orders.look(self.relay)
        self.say(b"\n")
        self.other.close()
        self.relay.calls[self.number]()
        self.assertEqual((list(self.got), self.relay.calls), ([""], {}))
        self.orders.look(self.relay)
        self.assertEqual(self.relay.calls, {})

    def test_nothing_there_and_a_fault(self) -> None:
        self.orders.look(self.relay)
        with mock.patch("os.read", side_effect=BlockingIOError):
            self.relay.calls[self.number]()
        self.say(b"\n")
        self.assertEqual(list(self.got), [""])
        with mock.patch("os.read", side_effect=OSError):
            self.relay.calls[self.number]()
        self.orders.look(self.relay)
        self.assertEqual(self.relay.calls, {})

    def test_a_terminal_is_read_in_the_foreground_alone(self) -> None:
        with mock.patch("os.isatty", return_value=True) as isatty, \
                mock.patch("os.tcgetpgrp") as group:
            group.return_value = os.getpgrp() + 1
            for fault in (None, OSError):
                group.side_effect = fault
                self.orders.look(self.relay)
                self.assertEqual(self.relay.calls, {})
            group.side_effect, group.return_value = None, os.getpgrp()
            self.orders.look(self.relay)
            self.say(b"one\n")
            group.return_value = os.getpgrp() + 1  # the host has put it into the background
            self.say(b"two\n")
            self.assertEqual((list(self.got), self.relay.calls), (["one"], {}))
            group.return_value = os.getpgrp()
            self.orders.look(self.relay)
            self.relay.calls[self.number]()
            self.assertEqual(list(self.got), ["one", "two"])
            isatty.assert_called_with(self.number)

    def test_a_pipe_is_read_in_the_background_too(self) -> None:
        with mock.patch("os.tcgetpgrp", return_value=os.getpgrp() + 1):
            self.orders.look(self.relay)
            self.say(b"one\n")
        self.assertEqual(list(self.got), ["one"])


class AtOnce(FolderCase):
    """Sources that need no waiting."""

    def orders(self, source: Optional[Any], relay: Any) -> "list[str]":
        got: Deque[str] = deque()
        orders = Orders(source, got)
        for _ in range(2):
            orders.look(relay)
        return list(got)

    def test_none_and_a_text_in_memory(self) -> None:
        relay, closed = mock.Mock(), io.StringIO("one\n")
        closed.close()
        with open(os.devnull, encoding="ascii") as file:
            pass  # a standard input that was closed
        for source, due in ((None, []), (closed, []), (file, []), (
                io.StringIO("without seat3\n\n  one \n"), ["without seat3", "", "one"])):
            self.assertEqual(self.orders(source, relay), due)
        self.assertEqual(relay.method_calls, [])

    def test_a_file_is_read_to_its_end(self) -> None:
        file = self.folder / "orders"
        lines = [f"without seat{number}" for number in range(500)]  # more than are read at once
        file.write_text("".join(f"{line}\n" for line in lines))
        for fault in (PermissionError, ValueError):
            relay = mock.Mock(attend=mock.Mock(side_effect=fault))
            with file.open() as source:
                self.assertEqual(self.orders(source, relay), lines)
