"""The parts of a practice room by themselves: what it tells its page, its house agents without
their processes, and its command."""

import json
import os
import signal
import socket
from pathlib import Path
from types import SimpleNamespace
from typing import Any, Dict, List, Optional
from unittest import mock

from geesefuton import program
from geesefuton.hosting.control import STOPPED
from geesefuton.hosting.page_process import SideProcess
from geesefuton.hosting.relay import OWN, Relay
from geesefuton.practice import page, room_command, table
from geesefuton.practice.page import Board
from geesefuton.practice.table import HouseServer
from geesefuton.records.secret_deals import commitment, read_secret
from tests.package.helpers import fake_program, refusal
from tests.package.test_room_folder import FULL, Case

WORDS = [f"seat{seat}" for seat in range(8)]
MOST = 120.0  # seconds that anything may take, on a machine that is busy with other work


class Boards(Case):
    """What the room writes for its page, and tells of the page's process."""

    def setUp(self) -> None:
        super().setUp()
        self.path.mkdir()
        self.children, self.told = mock.Mock(), list[str]()
        self.children.folder.return_value = self.path
        self.made = self.patch(page, "SideProcess", mock.Mock())
        self.process = self.made.return_value
        self.process.look.return_value = ""

    def board(self, port: Optional[int] = 7080) -> Board:
        return Board(self.children, {"page": port, "port": 7000, "pace": 500, "late": 6,
                                     "address": "10.0.0.1"}, self.told.append)

    def shown(self) -> Dict[str, Any]:
        what: Dict[str, Any] = json.loads((self.path / "board").read_bytes())
        return what

    def test_the_file_has_what_is_shown_and_in_the_end_that_the_room_is_over(self) -> None:
        made, shown = self.board(), [{"names": ["a"]}, {"names": ["b"], "room": {"game": 1}}]
        for what in shown:
            made.show(what)
            self.assertEqual(self.shown(), {**what, "is_over": False})
        self.assertEqual(self.process.look.call_count, 2)
        children, name, module, told = self.made.call_args[0]
        self.assertEqual((children, name, module),
                         (self.children, "the page", "geesefuton.practice.page"))
        self.assertEqual(json.loads(told()), {
            "page": 7080, "port": 7000, "pace": 500, "late": 6, "address": "10.0.0.1",
            "board": str(self.path / "board")})
        self.assertTrue(told().endswith(b"}\n"))
        stops = mock.Mock()
        made.close(stops)
        self.assertEqual(self.shown(), {**shown[-1], "is_over": True})
        self.process.wait.assert_called_once_with(page.SHOWING, stops)
        self.process.close.assert_called_once_with()
        self.assertEqual([each.name for each in self.path.iterdir()], ["board"])

    def test_a_fault_is_told_once_and_the_page_has_what_it_had(self) -> None:
        made = self.board()
        made.show({"names": ["a"]})
        self.process.look.return_value = "the page cannot be started"
        for _ in range(3):
            made.show({"names": ["b"]})
        with mock.patch("os.replace", side_effect=FULL):
            made.show({"names": ["c"]})
        self.assertEqual(self.told, ["the page cannot be started",
                                     "cannot show the page: No space left on device"])
        self.assertEqual(self.shown()["names"], ["b"])

    def test_without_a_page_nothing_is_written_or_started(self) -> None:
        self.process.is_running.return_value = False
        made = self.board(None)
        made.show({})
        made.close(lambda: False)
        self.assertEqual((list(self.path.iterdir()), self.process.look.call_count), ([], 0))
        self.process.wait.assert_not_called()

    def test_the_end_of_the_page_is_waited_for_unless_the_room_is_stopped(self) -> None:
        self.made.side_effect, poll = SideProcess, self.children.start.return_value.poll
        poll.return_value = None
        made = self.board()
        made.show({})
        made.close(lambda: True)
        poll.side_effect = [None, None, None, 0]
        made.close(lambda: False)
        self.assertEqual(list(poll.side_effect), [])


class Houses(Case):
    """House agents and the seats that they take, without their processes."""

    def setUp(self) -> None:
        super().setUp()
        self.path.mkdir()
        self.patch(program, "find", lambda: "tac")
        self.served = self.patch(table, "ClockServer", mock.Mock())
        self.served.return_value.play.return_value = 6
        entrants: Any = [SimpleNamespace(name=name, words=(f"run-{name}",)) for name in "ab"]
        self.house = HouseServer(entrants)
        self.assertEqual([self.house.name_at(seat) for seat in range(3)],
                         ["house a", "house b", "house a"])
        self.house.port = 7000
        seats = [SimpleNamespace(number=number, word=word, holder=None)
                 for number, word in enumerate(WORDS)]
        seats[2].holder = 5
        self.seats = seats
        self.game = mock.Mock(is_stopped=False, folder=self.path)
        self.game.relay.seats = SimpleNamespace(seats=seats, own={})
        self.game.relay.links = {1: SimpleNamespace(source=OWN), 5: SimpleNamespace(source="::1")}
        self.game.settings.pace = 250
        self.own: List[Dict[str, int]] = []  # the words of house agents at each turn
        self.process = self.game.children.start.return_value
        self.process.poll.return_value = None  # it goes on

    def take_seats(self, _: float) -> None:
        self.own.append(dict(self.game.relay.seats.own))
        for seat in self.seats:
            seat.holder = 1

    def started(self) -> List[List[str]]:
        return [call[0][0] for call in self.game.children.start.call_args_list]

    def test_each_empty_seat_gets_the_next_agent_with_a_word_of_its_own(self) -> None:
        self.game.turn = self.take_seats
        self.assertEqual(self.house.play(self.game), 6)
        words = self.started()
        own, = self.own
        self.assertEqual(self.game.relay.seats.own, {})  # a word that others have seen is worthless
        self.assertEqual(sorted(own.values()), [0, 1, 3, 4, 5, 6, 7])
        self.assertFalse(set(own) & set(WORDS))
        self.assertEqual([each[:3] for each in words], [
            [f"run-{'ab'[seat % 2]}", "localhost", "7000"] for seat in (0, 1, 3, 4, 5, 6, 7)])
        self.assertEqual([own[each[3]] for each in words], [0, 1, 3, 4, 5, 6, 7])
        self.assertEqual(words[0][4:], ["--pause", "0.25"])
        self.game.warn.assert_not_called()
        self.game.children.end.assert_not_called()

    def test_one_whose_seat_a_guest_has_taken_is_ended_and_its_word_is_none(self) -> None:
        self.seats[3].holder = self.seats[4].holder = 1

        def come(_: float) -> None:
            self.take_seats(0.0)
            self.seats[0].holder = 5

        self.game.turn = come
        self.house.play(self.game)
        self.game.children.end.assert_called_once_with(self.process)
        self.assertEqual(self.game.relay.seats.own, {})

    def test_a_guest_who_comes_while_house_agents_start_keeps_the_seat(self) -> None:
        listener = socket.create_server(("127.0.0.1", 0))
        relay = Relay(WORDS, [listener], lambda _: None, mock.Mock(), 30.0, 0.0)
        self.addCleanup(listener.close)
        self.addCleanup(relay.close)
        links: Dict[str, socket.socket] = {}

        def hello(word: str) -> None:
            links[word] = socket.create_connection(listener.getsockname())
            self.addCleanup(links[word].close)
            links[word].sendall(f"hello {word}\n".encode())

        def turn(_: float) -> None:
            if not links:
                hello("seat0")
                while relay.seats.seats[0].holder is None:
                    relay.turn(MOST)
                for words in self.started():
                    hello(words[3])
            relay.turn(MOST)

        self.game.relay, self.game.turn = relay, turn
        self.game.children.start.side_effect = lambda words, **_: mock.Mock(
            poll=lambda: None, word=words[3])
        self.game.children.end.side_effect = lambda process: links[process.word].close()
        self.house.play(self.game)
        seat = relay.seats.seats[0]
        for other in relay.seats.seats:
            self.assertIsNotNone(other.holder)
        while seat.heir is not None or len(relay.links) > 8:
            relay.turn(MOST)
        assert seat.holder is not None
        self.assertEqual(relay.links[seat.holder].source, "127.0.0.1")
        seat.begin(0.0)
        self.assertEqual(seat.wait(1000.0), [])  # however long it thinks

    def test_one_that_cannot_be_started_or_has_ended_is_told_and_the_game_is_played(self) -> None:
        self.game.children.start.side_effect = [OSError(11, "Resource temporarily unavailable"),
                                                *[mock.Mock(poll=lambda: None)] * 6]
        self.game.turn = self.take_seats
        self.assertEqual(self.house.play(self.game), 6)
        self.game.warn.assert_called_once_with("cannot start the house agent a: Resource "
                                               "temporarily unavailable")

        for seat in self.seats:
            seat.holder = 5 if seat.number == 2 else None
        self.game.warn.reset_mock()
        self.game.children.start = lambda words, **how: mock.Mock(poll=lambda: 1)
        self.game.turn = mock.Mock()
        self.assertEqual(self.house.play(self.game), 6)
        self.assertEqual([call[0][0] for call in self.game.warn.call_args_list], [
            f"the house agent {'ab'[seat % 2]} did not take seat{seat}, but ended"
            for seat in (0, 1, 3, 4, 5, 6, 7)])

    def test_one_that_does_not_come_is_waited_for_a_while(self) -> None:
        self.patch(table, "COMING", 0.05)
        self.assertEqual(self.house.play(self.game), 6)
        self.assertEqual(self.game.warn.call_count, 7)
        self.assertIn("did not take seat0 within 0.05 seconds",
                      self.game.warn.call_args_list[0][0][0])
        self.assertEqual(self.game.children.end.call_count, 7)

    def test_no_house_fills_no_seat_and_a_game_that_is_stopped_is_not_served(self) -> None:
        self.assertEqual(HouseServer([]).play(self.game), 6)
        self.assertEqual((self.started(), self.game.relay.seats.own), ([], {}))
        self.game.is_stopped = True
        self.assertEqual(self.house.play(self.game), STOPPED)
        self.served.return_value.play.assert_called_once()


class Commands(Case):
    """What the command makes of signals and of its words."""

    def setUp(self) -> None:
        super().setUp()
        self.handlers: Dict[int, Any] = {}
        self.said: List[str] = []
        self.patch(room_command.signal, "signal", self.handlers.__setitem__)

    def test_a_first_ctrl_c_closes_the_room_and_other_signals_at_once(self) -> None:
        made = mock.Mock(close=mock.Mock(return_value="the room closes"))
        numbers = room_command._heed_signals(made, self.said.append)
        self.assertEqual(set(self.handlers), {signal.SIGINT, signal.SIGTERM, signal.SIGHUP})
        for _ in range(2):
            self.handlers[signal.SIGINT](signal.SIGINT, None)
        made.close.return_value = ""
        self.handlers[signal.SIGTERM](signal.SIGTERM, None)
        self.assertEqual([call[0][0] for call in made.close.call_args_list], [False, True, True])
        self.assertEqual((self.said, numbers[-1]),
                         (["ctrl-C: the room closes"] * 2, signal.SIGTERM))
        for number in (signal.SIGTERM, signal.SIGHUP):  # the first of others does so, too
            made = mock.Mock(close=mock.Mock(return_value=""))
            self.assertEqual(room_command._heed_signals(made, self.said.append), [])
            self.handlers[number](number, None)
            made.close.assert_called_once_with(True)
        self.handlers.clear()
        self.patch(room_command.signal, "getsignal", lambda number: (
            signal.SIG_IGN if number == signal.SIGHUP else signal.SIG_DFL))
        room_command._heed_signals(mock.Mock(), self.said.append)
        self.assertEqual(set(self.handlers), {signal.SIGINT, signal.SIGTERM})  # it stays ignored

    def test_the_house_is_the_planner_others_or_none(self) -> None:
        def names(given: Optional[List[str]]) -> List[str]:
            return [Path(each.words[-1]).name for each in room_command._house(given)]

        for given, due in ((None, ["planner.py"]), (["", ""], []),
                           (["trader.py", "cat"], ["trader.py", "cat"])):
            self.assertEqual(names(given), due)
        own = self.place / "planner.py"
        own.touch()
        self.go_to(self.place)
        self.assertEqual(Path(room_command._house(["planner.py"])[0].words[-1]).resolve(),
                         own.resolve())  # a file that is there is none of the examples
        self.patch(program, "top", lambda: None)  # outside a clone
        self.assertEqual(names(None), ["planner.py"])

    def test_it_refuses_in_a_line(self) -> None:
        other = self.place / "run.json"
        other.write_text("{}")
        with mock.patch.dict(os.environ, {"TAC": fake_program(self.place, "")}):
            for words, told in ((["--folder", self.place], "is not the folder of a practice room"),
                                (["--house", "nobody.py"], "there is no file nobody.py"),
                                (["--slips", "slips.html"], "--slips needs --teams"),
                                (["--page", "7000"], "choose another for the page"),
                                (["--folder", self.path, "--teams", other], "is not a team")):
                status, text = refusal("practice.room_command", *words)
                self.assertEqual((status > 0, text.count("\n")), (True, 1), text)
                self.assertIn(told, text)

    def test_the_exit_status_is_that_of_the_signal(self) -> None:
        self.patch(program, "find", lambda: "tac")
        self.patch(room_command.Teller, "say", mock.Mock())
        words = ["room", "--folder", str(self.path), "--house", "", *(
            "--wait 7 --after 8 --pace 9 --port 7001 --seed 3 --games 2".split())]
        for numbers, due in (([], 0), ([signal.SIGINT], 130), ([signal.SIGTERM], 143)):
            with mock.patch("sys.argv", words), \
                    mock.patch.object(room_command, "Room") as made, \
                    mock.patch.object(room_command, "_heed_signals", return_value=numbers):
                self.assertEqual(room_command._main(), due)
            given, agents, folder, *_, teams, games, tables = made.call_args[0]
            self.assertEqual((given.port, given.pace, given.wait, given.linger, agents, teams,
                              games, tables, folder.rule.seed),
                             (7001, 9, 7.0, 8.0, [], [], 2, 1, 3))
            made.return_value.run.assert_called_once_with()

    def test_what_games_are_drawn_from_is_told_at_the_start_and_the_secret_at_the_end(self) -> None:
        self.patch(program, "find", lambda: "tac")
        self.patch(room_command, "Room", mock.Mock())
        told = self.patch(room_command.Teller, "say", mock.Mock())
        for words, due in ((["--seed", "3"], "games can be guessed: they are those of the seeds "
                                             "from 3 on"),
                           (["--seed", "3", "--end"], "the room is over; its games were those of "
                                                      "the seeds from 3 on"),
                           ([], "games are drawn from a secret, whose SHA-256 is {0}"),
                           (["--end"], "the room is over; its secret was {1}")):
            path = self.place / ("seeds" if "--seed" in words else "secrets")
            with mock.patch("sys.argv", ["room", "--folder", str(path), *words]), \
                    mock.patch.object(room_command, "_house", return_value=["x"]):
                self.assertEqual(room_command._main(), 0)
            file = path / "secret"
            secret = file.read_text().strip() if file.exists() else "00" * 32
            told.assert_called_once_with(due.format(commitment(read_secret(secret)), secret))
            told.reset_mock()
