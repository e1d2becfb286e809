"""The door of a room with several tables: which link waits, plays or is refused."""

import contextlib
import socket
import time
from typing import Any, Callable, Dict, List
from unittest import mock

from geesefuton.hosting.relay import Relay
from geesefuton.network.gate import AT_ONCE
from geesefuton.practice import door as door_module
from geesefuton.practice.door import Door, Handed
from geesefuton.practice.teams import Team
from tests.package.cases import MOST, Case

WORDS = [f"seat{seat}" for seat in range(8)]


class Doors(Case):
    def setUp(self) -> None:
        listener = self.enter(socket.create_server(("127.0.0.1", 0)))
        self.port: int = listener.getsockname()[1]
        self.house: Dict[str, Handed] = {}
        self.games: Dict[str, int] = {}
        self.door = Door(listener, [Team(f"Team {n}", f"team{n}", f"w{n}") for n in range(30)],
                         self.house.get, self.games)
        self.addCleanup(self.door.close)

    def link(self, said: bytes) -> socket.socket:
        made: socket.socket = self.enter(socket.create_connection(("127.0.0.1", self.port)))
        made.settimeout(MOST)
        made.sendall(said)
        return made

    def come(self, *numbers: int) -> List[socket.socket]:
        """Links of teams, which wait one after the other."""
        links = []
        for number in numbers:
            links.append(self.link(f"hello w{number}\n".encode()))
            self.until(lambda: f"team{number}" in self.door.waiting)
        return links

    def handed(self) -> Handed:
        made = Handed(self.port)
        self.addCleanup(made.close)
        made.setblocking(False)
        return made

    def seated(self, number: int) -> Handed:
        """A table that has got the link of a team."""
        table = self.handed()
        self.come(number)
        self.door.seat([f"team{number}"], table)
        return table

    def says_nothing(self, link: socket.socket) -> None:
        link.setblocking(False)
        with self.assertRaises(BlockingIOError):
            link.recv(1)

    def until(self, holds: Callable[[], Any], told: Any = "") -> None:
        """Lets the door turn until something holds."""
        def turned() -> Any:
            self.door.turn(0.05)
            return holds()

        super().until(turned, told)

    def answer(self, link: socket.socket) -> bytes:
        """What a link is told, to its end."""
        said: List[bytes] = []
        link.setblocking(False)

        def has_ended() -> bool:
            try:
                said.append(link.recv(100))
            except ConnectionResetError:  # something that it sent was not taken
                said.append(b"")
            except BlockingIOError:
                pass
            return said[-1:] == [b""]

        self.until(has_ended)
        return b"".join(said)

    @staticmethod
    def is_readable(table: Handed) -> bool:
        with contextlib.suppress(BlockingIOError):
            table.accept()[0].close()
            return True
        return False

    def test_a_team_waits_and_is_told_nothing_until_it_plays(self) -> None:
        link, = self.come(3)
        self.says_nothing(link)
        table = self.handed()
        self.door.seat(["team3"], table)
        taken, where = table.accept()
        with taken:
            self.assertEqual((taken.recv(100), where[0]), (b"hello w3\n", "127.0.0.1"))
        self.assertEqual(self.door.waiting, {})

    def test_a_table_takes_its_links_as_if_they_had_come_to_its_port(self) -> None:
        table = self.handed()
        relay = Relay(WORDS, [table], lambda _: None, mock.Mock(), 30.0, 10.0)
        self.addCleanup(relay.close)
        relay.seats.keys = {"w5": 2, "w6": 4}
        self.come(6, 5)
        self.door.seat(["team5", "team6"], table)

        def seated() -> bool:
            relay.turn(0.05)
            return [seat.number for seat in relay.seats.seats if seat.holder is not None] == [2, 4]

        super().until(seated)

    def test_a_team_that_plays_comes_to_its_table_again_and_waits_once_the_game_is_over(
            self) -> None:
        table = self.seated(3)
        table.accept()[0].close()
        self.link(b"hello w3\n")
        self.until(lambda: self.is_readable(table))
        table.close()
        self.come(3)

        self.seated(4).over.add("team4")  # or its part in it
        self.come(4)

    def test_a_house_agent_comes_to_its_table(self) -> None:
        self.house["hidden"] = table = self.handed()
        self.link(b"hello hidden\n")
        self.until(lambda: self.is_readable(table))

    def test_what_is_refused_and_how(self) -> None:
        self.come(3)
        for line, due in ((b"hello\n", "syntax"), (b"x" * 600, "syntax"),
                          (b"hello nobody\n", "wrongword"), (b"hello team3\n", "wrongword"),
                          (b"hello w3\n", "taken")):
            with self.subTest(line=line):
                self.assertEqual(self.answer(self.link(line)), f"refused {due}\n".encode())
        self.assertEqual(list(self.door.waiting), ["team3"])

    def test_a_link_that_has_ended_waits_no_longer(self) -> None:
        link, = self.come(3)
        link.close()
        self.until(lambda: not self.door.waiting)
        self.come(3)

    def test_a_link_that_says_nothing_or_half_a_line_is_closed_after_a_while(self) -> None:
        links = [self.link(said) for said in (b"", b"hello w")]
        self.until(lambda: len(self.door._visitors) == 2)
        for visitor in self.door._visitors.values():
            self.assertGreater(visitor.visit.deadline, time.monotonic())
            visitor.visit.deadline = 0.0
        for link in links:
            self.assertEqual(self.answer(link), b"")

    def test_beyond_a_number_the_eldest_link_without_a_line_is_closed(self) -> None:
        self.come(3)
        links = [self.link(b"") for _ in range(door_module.MOST_EACH + 1)]
        self.assertEqual(self.answer(links[0]), b"")
        self.come(4)
        self.assertEqual(list(self.door.waiting), ["team3", "team4"])

    def test_many_links_are_taken_at_once(self) -> None:
        links = [self.link(b"") for _ in range(AT_ONCE)]
        self.door.turn(MOST)
        self.assertEqual(len(self.door._visitors), len(links))

    def test_guesses_are_slow(self) -> None:
        with mock.patch("geesefuton.network.gate.CREDIT", 0.0):
            for _ in range(2):
                link = self.link(b"hello guess\n")
                self.until(lambda: any(each.visit.due for each in self.door._visitors.values()))
            self.door.turn(0.0)
            self.says_nothing(link)

    def test_a_link_that_is_handed_to_a_game_that_is_over_is_closed(self) -> None:
        link, = self.come(3)
        table = self.handed()
        table.close()
        self.door.seat(["team3"], table)
        self.assertEqual(self.answer(link), b"")

    def next(self, free: int = 1, wait: float = 0.0) -> List[str]:
        return self.door.next_teams(free, wait)

    def test_who_has_played_fewest_games_comes_first_and_then_who_waits_longest(self) -> None:
        self.games.update(team2=1, team4=3, team1=1)
        self.come(4, 2, 7, 1)
        self.assertEqual(self.door.places(), ["team7", "team2", "team1", "team4"])

    def test_a_team_is_told_its_place_on_another_link(self) -> None:
        self.games.update(team2=1)
        link, *_ = self.come(2, 4, 7)
        for word, due in (("w2", "place 3 of 3"), ("w4", "place 1 of 3"), ("w5", "place 0 of 3"),
                          ("nobody", "refused wrongword"), ("team2", "refused wrongword")):
            with self.subTest(word=word):
                self.assertEqual(self.answer(self.link(f"place {word}\n".encode())),
                                 f"{due}\n".encode())
        self.says_nothing(link)
        self.assertEqual(self.door.places(), ["team4", "team7", "team2"])

    def test_a_game_begins_once_the_free_tables_are_full_or_the_first_team_has_waited(
            self) -> None:
        self.assertEqual(self.next(), [])
        self.come(*range(7))
        self.assertEqual(self.next(wait=MOST), [])
        self.assertEqual(len(self.next()), 7)
        self.come(7, 8)
        self.assertEqual(len(self.next(wait=MOST)), 8)
        self.assertEqual(self.next(free=2, wait=MOST), [])
        self.assertEqual(self.next(free=0), [])

    def test_a_game_begins_once_all_teams_are_here_that_do_not_play(self) -> None:
        table = self.handed()
        self.come(*range(27))
        self.door.seat([f"team{number}" for number in range(8)], table)
        self.assertEqual(self.next(free=3, wait=MOST), [])
        self.come(27, 28, 29)
        self.assertEqual(len(self.next(free=3, wait=MOST)), 8)
        self.assertEqual(len(self.door.waiting), 22)

    def test_tables_are_filled_evenly(self) -> None:
        self.come(*range(12))
        for free, due in ((1, [8, 4]), (2, [6, 6]), (3, [6, 6])):
            sizes, left = [], dict(self.door.waiting)
            while self.door.waiting and free > len(sizes) - 5:
                keys = self.next(free=max(1, free - len(sizes)))
                sizes.append(len(keys))
                for key in keys:
                    del self.door.waiting[key]
            self.assertEqual(sizes, due)
            self.door.waiting = left
