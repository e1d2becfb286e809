"""A room with several tables, by stand-ins for its games: which games are played at once, what the
page is told, and the end of the room."""

import json
import queue
import re
import socket
import threading
from pathlib import Path
from typing import Any, Callable, Dict, List
from unittest import mock

from geesefuton import program
from geesefuton.hosting import events
from geesefuton.hosting.control import STOPPED, Phase
from geesefuton.hosting.events import End, Event
from geesefuton.hosting.lobby import LobbyError
from geesefuton.hosting.settings import LobbySettings
from geesefuton.network.addresses import network_of
from geesefuton.practice import door, room, table
from geesefuton.practice.room import Room
from geesefuton.practice.table import HouseServer, Table
from geesefuton.practice.teams import Team
from tests.package.helpers import SERVED_LOG
from tests.package.lobbies import MOST, WORDS
from tests.package.test_room_folder import RoomCase, game_of

TEAMS = [Team(f"Team {number}", f"team{number}", f"w{number}") for number in range(20)]


class Beside(RoomCase):
    def run_beside(self, run: Callable[[], Any], close: Callable[[bool], Any]) -> threading.Thread:
        """Runs something in a thread, and closes it at the end of the test."""
        thread = threading.Thread(target=run)
        thread.start()
        self.addCleanup(thread.join, MOST)
        self.addCleanup(close, True)
        return thread


class Tables(Beside):
    """Games that go on until the test ends them. All have the log of another game."""

    def setUp(self) -> None:
        super().setUp()
        self.games: "queue.Queue[Any]" = queue.Queue()  # the stand-ins for lobbies that were made
        self.told: "queue.Queue[str]" = queue.Queue()
        self.shown: "queue.Queue[Dict[str, Any]]" = queue.Queue()
        self.patch(table, "Lobby", self.lobby)
        self.patch(room, "LOOK", 0.02)
        self.faults: List[Exception] = []  # of the next games

    def lobby(self, settings: Any, serving: Any) -> Any:
        if self.faults:
            raise self.faults.pop(0)
        made = mock.Mock(settings=settings, port=7000, status=0, ends=threading.Event(),
                         over=threading.Event())
        made.control.phase = Phase.PLAYING

        def run(take: Callable[[Event], None]) -> int:
            settings.listeners[0].setblocking(True)
            links = [settings.listeners[0].accept()[0] for _ in settings.keys]
            seats = sorted(settings.keys.values())
            for seat in seats:
                take(events.Arrived(50.0, seat, f"seat{seat}", "10.0.0.7"))
            take(events.Began(60.0, tuple(seats)))
            made.take = take
            self.games.put(made)
            made.ends.wait(MOST)
            for link in links:
                link.close()
            settings.listeners[0].close()
            made.over.set()
            settings.log.write(SERVED_LOG.read_bytes())
            return int(made.status)

        made.run = run
        made.control.stop = lambda: (setattr(made, "status", STOPPED), made.ends.set())
        return made

    def start(self, tables: int, games: int = 0, wait: float = 0.0) -> Room:
        board = mock.Mock(show=lambda shown: self.shown.put(shown["room"]))
        made = Room(LobbySettings(Path(), 0, 1000, None, wait=wait), [], self.kept, board,
                    self.told.put, TEAMS, games or None, tables)
        self.thread = self.run_beside(made.run, made.close)
        port = re.search("[0-9]+$", self.told.get(timeout=MOST))
        assert port is not None
        self.port = int(port[0])
        return made

    def come(self, *numbers: int) -> None:
        """Links of teams come, and are seen to wait."""
        for number in numbers:
            self.link(f"hello w{number}\n")
            if number != numbers[-1]:
                self.until(lambda state, name=f"Team {number}": name in state["waiting"])

    def link(self, said: str) -> None:
        link = socket.create_connection(("127.0.0.1", self.port))
        self.addCleanup(link.close)
        link.sendall(said.encode())

    def until(self, is_so: Callable[[Dict[str, Any]], bool]) -> Dict[str, Any]:
        """The next state of the page of which something is so."""
        while True:
            state = self.shown.get(timeout=MOST)
            if is_so(state):
                return state

    def next_game(self) -> Any:
        game = self.games.get(timeout=MOST)
        self.addCleanup(game.ends.set)
        return game

    def start_game(self) -> Any:
        """A room of two tables, and a game of one team, number 3, at one of them."""
        self.made = self.start(2)
        self.come(3)
        return self.next_game()

    @staticmethod
    def teams(game: Any) -> List[str]:
        return sorted(game.settings.keys)

    def test_games_are_played_at_once_and_who_has_played_least_is_next(self) -> None:
        audited = threading.Event()
        self.audit.side_effect = lambda *_: audited.wait(MOST) and "sound"
        self.start(2, games=3, wait=MOST)
        self.come(*range(16))
        first, second = self.next_game(), self.next_game()
        self.assertEqual({frozenset(self.teams(game)) for game in (first, second)},
                         {frozenset(f"w{n}" for n in some) for some in (range(8), range(8, 16))})
        for game in (first, second):
            game.ends.set()
            self.assertTrue(game.over.wait(MOST))
        self.come(*range(3, 9), *range(16, 20))  # while the logs are audited
        state = self.until(lambda state: "Team 19" in state["waiting"])
        self.assertEqual(state["waiting"], [f"Team {n}" for n in (16, 17, 18, 19, *range(3, 9))])
        self.assertEqual(len(state["tables"]), 2)
        self.come(0, 1, 2, *range(9, 12))
        self.until(lambda state: len(state["waiting"]) == 16)
        audited.set()
        third = self.next_game()
        self.assertEqual(self.teams(third), sorted(
            f"w{n}" for n in (16, 17, 18, 19, 3, 4, 5, 6)))
        third.ends.set()
        self.thread.join(MOST)
        self.assertEqual(sorted(game.number for game in self.kept.finished), [1, 2, 3])
        self.assertEqual({game.seed - game.number for game in self.kept.finished}, {6})

    def test_a_team_whose_part_in_its_game_is_over_waits_for_the_next(self) -> None:
        game = self.start_game()
        game.take(events.Ended(70.0, game.settings.keys["w3"], "team3", End.LEFT, 9))
        self.come(3)
        other = self.next_game()
        self.assertEqual((self.teams(other), game.over.is_set()), (["w3"], False))

    def test_a_word_is_no_part_of_what_the_page_shows(self) -> None:
        self.start_game()
        state = self.until(lambda state: len(state["tables"]) == 1 and not state["waiting"])
        self.assertIn("Team 3", state["tables"][0][1])
        self.assertNotIn("w3", json.dumps(state))

    def test_a_room_that_is_closed_ends_after_its_games_and_at_once_before_them(self) -> None:
        game = self.start_game()
        self.assertIn("closes after this game", self.made.close(False))
        self.come(4)
        game.ends.set()
        self.thread.join(MOST)
        self.assertEqual([game.number for game in self.kept.finished], [1])
        self.assertTrue(self.games.empty())

    def test_a_room_that_is_stopped_ends_its_games(self) -> None:
        game = self.start_game()
        self.made.close(True)
        self.thread.join(MOST)
        self.assertEqual((game.status, self.kept.finished), (STOPPED, []))

    def test_a_game_that_cannot_be_hosted_is_told_and_its_teams_may_come_again(self) -> None:
        self.patch(room, "AGAIN", 0.1)
        self.faults = [LobbyError("port 7000: Too many open files")]
        self.start(2)
        self.come(3)
        self.assertEqual(self.told.get(timeout=MOST),
                         "game 1 cannot be played: port 7000: Too many open files")
        self.come(3)
        self.next_game()

    def test_the_first_line_of_a_house_agent_leads_to_its_table(self) -> None:
        game = self.start_game()
        with mock.patch.object(door.Handed, "put", autospec=True) as put:
            for each in self.made._tables:
                each.house.words = {"hidden": 4}
            self.link("hello hidden\n")
            while not put.called:
                self.assertTrue(self.thread.is_alive())
            self.assertIs(put.call_args[0][0], game.settings.listeners[0])
            put.call_args[0][1].close()


class Hosted(Beside):
    """A table with real lobbies, whose games a test plays."""

    def test_games_whose_teams_have_left_free_their_table_and_what_is_banned_stays_so(self) -> None:
        self.patch(program, "show", lambda file: file.read_text())
        played: "queue.Queue[Any]" = queue.Queue()
        settings = LobbySettings(Path(), 0, 1000, None, start=0.01)

        def play(number: int) -> Any:
            house = HouseServer([])
            self.patch(house, "play", lambda game: played.put(game) or STOPPED)
            made = Table(game_of(number), WORDS, {"w3": 3}, door.Handed(7000), settings, house,
                         self.kept, lambda: None, lambda: False)
            thread = self.run_beside(made.play, made.close)
            game = played.get(timeout=MOST)
            thread.join(MOST)
            return game

        play(1).relay.gate.banned.add(network_of("10.0.0.7"))
        self.assertIsNone(play(2).relay.gate.arrive("10.0.0.7"))
