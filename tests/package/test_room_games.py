"""The games of a practice room, with a lobby that plays what a test says: for whom seats count,
what the host and the page are told, and what fails."""

import hashlib
import json
from pathlib import Path
from types import SimpleNamespace
from typing import Any, Callable, Dict, List, Optional, Sequence
from unittest import mock

from geesefuton import program
from geesefuton.hosting import events
from geesefuton.hosting.control import STOPPED, Phase
from geesefuton.hosting.events import Event
from geesefuton.hosting.journal import Journal
from geesefuton.hosting.lobby import LobbyError
from geesefuton.hosting.relay import OWN
from geesefuton.hosting.settings import LobbySettings
from geesefuton.practice import room, table
from geesefuton.practice.folder import Finished
from geesefuton.practice.room import AUDITING, Room
from geesefuton.practice.teams import Team
from geesefuton.processes import write_whole
from geesefuton.records.games import read_game
from tests.package.helpers import SERVED_LOG, served_log
from tests.package.lobbies import WORDS
from tests.package.test_room_folder import FIRST, FULL, RoomCase

LOG = SERVED_LOG.read_bytes()
SCORES = tuple(score.score for score in served_log().scores)


Plays = Callable[[Any, Callable[[Event], None]], int]


class Lobbies:
    """Stands for `Lobby`, and makes games that do what a test says.

    Attributes:
        made: What each one was told: its settings, and who serves it.
        plays: What each next one does: it is given the stand-in and what takes events, and gives
            the exit status; or what it raises when it is made.
    """

    def __init__(self) -> None:
        self.made: List[Any] = []
        self.plays: List[Any] = []

    def __call__(self, settings: Any, serving: Any) -> Any:
        play = self.plays.pop(0)
        if isinstance(play, Exception):
            raise play
        lobby = mock.Mock(port=7000 + len(self.made), settings=settings, serving=serving)
        lobby.control.phase = Phase.GATHERING
        lobby.run = lambda take: play(lobby, take)
        self.made.append(lobby)
        return lobby


def whole(*happened: Event, log: bytes = LOG, status: int = program.OK) -> Plays:
    """A game in which this happens, and its log."""
    def play(lobby: Any, take: Callable[[Event], None]) -> int:
        for event in happened:
            take(event)
        lobby.settings.log.write(log)
        return status
    return play


def came(seat: int, at: float = 50.0, source: str = "10.0.0.7") -> Event:
    return events.Arrived(at, seat, f"seat{seat}", source)


def begun(seat: int, *happened: Event, **how: Any) -> Plays:
    return whole(came(seat), events.Began(60.0, (seat,)), *happened, **how)


class Rooms(RoomCase):
    """A room whose lobby is a stand-in. All games have the log of another one."""

    def setUp(self) -> None:
        super().setUp()
        self.lobbies = self.patch(table, "Lobby", Lobbies())
        self.patch(room, "AGAIN", 0.01)
        self.told, self.board = list[str](), mock.Mock()

    def play(self, *plays: Any, games: int = 0, **given: Any) -> Room:
        self.lobbies.plays = list(plays)
        made = self.room(games or len(plays), **given)
        made.run()
        return made

    def room(self, games: Optional[int] = None, teams: Sequence[Team] = (), house: Any = (),
             wait: float = 30.0) -> Room:
        settings = LobbySettings(Path(), 0, 1000, None, wait=wait, vouches=True)
        return Room(settings, house, self.kept, self.board, self.told.append, teams, games)

    def start_again(self) -> None:
        """The room is started again, and plays no game."""
        self.kept.close()
        self.kept = self.folder()
        self.room(games=0).run()

    def shown(self) -> List[Dict[str, Any]]:
        return [call[0][0] for call in self.board.show.call_args_list]

    def shown_rooms(self) -> List[Dict[str, Any]]:
        return [state["room"] for state in self.shown()]

    # For whom seats count.

    def test_a_seat_counts_for_who_had_it_at_the_beginning_or_first_took_it_in_the_game(
            self) -> None:
        entrants: Any = [SimpleNamespace(name="planner")]
        self.play(whole(
            came(0), came(1), events.Departed(51.0, 1, "seat1"), came(2, source=OWN),
            events.Began(60.0, (0, 2)), came(1, 61.0), came(3, 62.0, OWN),
            events.Departed(63.0, 0, "seat0"), events.Rejoined(64.0, 0, "seat0", "10.0.0.9"),
            events.Rejoined(65.0, 2, "seat2", "10.0.0.9")), house=entrants)
        game, = self.kept.finished
        self.assertEqual(game.players, ("seat0", "seat1", "house planner", "house planner", "", "",
                                        "", ""))
        self.assertEqual((game.number, game.seed, game.pace, game.began, game.scores, game.fault),
                         (1, 7, 1000, 60.0, SCORES, ""))

    def test_the_page_counts_down_from_the_first_guest_who_is_still_there(self) -> None:
        self.play(whole(
            came(3, 100.0), came(4, 108.0), events.Departed(110.0, 3, "seat3"),
            events.Departed(111.0, 4, "seat4"), came(5, 120.0), events.Began(150.0, (5,))),
            wait=30.0)
        begins = [room["begins"] for room in self.shown_rooms()]
        self.assertEqual(begins, [None, 130.0, 130.0, 130.0, None, 150.0, 150.0])
        here = [[seat["here"] for seat in room["seats"]].count(True) for room in self.shown_rooms()]
        self.assertEqual(here, [0, 1, 2, 1, 0, 1, 1])
        self.assertEqual([state["journal"] for state in self.shown()],
                         [None] * 6 + [str(self.path / "0001.journal")])

    def test_each_game_has_the_next_seed_and_the_page_has_the_standings(self) -> None:
        self.play(*map(begun, (0, 1, 0)))
        self.assertEqual([call[0][0] for call in self.make.call_args_list], [7, 8, 9])
        first, second = SCORES[0], SCORES[1]
        self.assertGreater(first, second)
        last = self.shown_rooms()[-1]
        self.assertEqual((last["game"], last["played"], last["phase"]), (3, 2, "room"))
        self.assertEqual([row[:2] + row[3:] for row in last["table"]],
                         [[1, "seat0", first, None], [2, "seat1", second, None]])
        self.assertEqual((last["commitment"], last["last"][:2]), ("", [2, "8"]))
        self.assertEqual(self.told, [
            "game 1 of `tac make 7` counts; first of 1: seat0",
            "game 2 of `tac make 8` counts; first of 2: seat0",
            "game 3 of `tac make 9` counts; first of 2: seat0"])

    def test_standings_are_made_once_a_game_however_many_come_and_go(self) -> None:
        with mock.patch.object(room, "standings_of", return_value=[]) as made:
            self.play(whole(*[event for _ in range(50)
                              for event in (came(0), events.Departed(51.0, 0, "seat0"))]))
        self.assertEqual(self.board.show.call_count, 101)
        self.assertLessEqual(made.call_count, 2)

    # What is told of games that fail.

    def test_a_game_without_a_sound_log_is_lost_and_told(self) -> None:
        self.audit.side_effect = ["unsound score 0", "sound",
                                  program.ProgramError("refused", program.REFUSED)]
        self.play(*(begun(0, status=status, log=log) for status, log in (
            (0, LOG), (7, b""), (0, b"taclog 1\nhey\n"), (program.CLOCK, LOG))), games=4)
        faults = [game.fault for game in self.kept.finished]
        self.assertEqual(faults[:2], ["the audit says `unsound score 0`", "exit status 7"])
        self.assertTrue(all(fault.startswith("its log: ") for fault in faults[2:]), faults)
        self.assertEqual([game.scores for game in self.kept.finished], [()] * 4)
        self.assertIn("game 2 is lost: exit status 7", self.told)

    def test_a_log_that_cannot_be_audited_now_is_kept_and_audited_again(self) -> None:
        self.audit.side_effect = [program.ProgramError("memory was refused", 7), "sound", "sound"]
        self.play(begun(0), begun(1))
        self.assertEqual([(game.number, game.scores, game.fault) for game in self.kept.finished],
                         [(1, SCORES, ""), (2, SCORES, "")])
        self.assertEqual(self.told[0], "game 1 does not count yet: memory was refused; its log is "
                         "kept, and audited again after the next game")
        self.assertEqual({call[0][2] for call in self.audit.call_args_list}, {AUDITING})
        self.audit.side_effect = program.ProgramError("no program")
        self.play(begun(0))
        self.assertEqual((len(self.kept.finished), set(self.kept.unjudged)), (2, {3}))
        self.audit.side_effect = None
        self.start_again()  # or at the next start
        self.assertEqual([game.scores for game in self.kept.finished], [SCORES] * 3)

    def test_what_is_said_of_links_is_kept_and_a_game_that_is_not_vouched_for_is_lost(self) -> None:
        said = tuple(f"vouched {seat} whole 3" for seat in range(8))
        other = (*said[:7], "unvouched line 4")
        # A game in which ticks lapsed counts.
        self.play(*(begun(0, events.Finished(70.0, status, None, each), status=status)
                    for status, each in ((0, said), (9, other), (program.CLOCK, ()))))
        games = self.kept.finished
        self.assertEqual([game.vouched for game in games], [said, other, ()])
        self.assertEqual([game.scores for game in games], [SCORES, (), SCORES])
        fault = "its log does not match each link: vouched 7 of 8 (seat7: unvouched line 4)"
        self.assertEqual([game.fault for game in games], ["", fault, ""])
        self.assertIn(f"game 2 is lost: {fault}", self.told)
        self.assertTrue(self.lobbies.made[0].settings.vouches)
        self.kept.close()
        self.assertEqual(self.folder().finished, games)

    def test_a_game_that_has_its_log_counts_though_the_room_was_killed_before_it_was_told(
            self) -> None:
        class Killed(BaseException):
            """What stands for a kill."""

        def killed(lobby: Any, take: Callable[[Event], None]) -> int:
            for event in (came(0), events.Began(60.0, (0,)), came(3, 61.0)):
                take(event)
            lobby.settings.journal.with_suffix(".log").write_bytes(LOG)
            raise Killed

        with self.assertRaises(Killed):
            self.play(killed)
        self.start_again()
        game, = self.kept.finished
        self.assertEqual((game.number, game.seed, game.scores, game.fault), (1, 7, SCORES, ""))
        self.assertEqual(game.players, ("seat0", "", "", "seat3", "", "", "", ""))
        self.assertEqual(game.files["log"], hashlib.sha256(LOG).hexdigest())
        self.assertEqual(self.kept.next_number(), (2, []))

    def test_a_game_that_was_stopped_does_not_count_and_the_room_goes_on(self) -> None:
        def stopped(lobby: Any, take: Callable[[Event], None]) -> int:
            journal = Journal(lobby.settings.journal, self.fail)
            journal.head(1000, "words", FIRST)
            journal.tell(tick=0, t=0)
            journal.close()
            return STOPPED

        self.play(stopped, whole(), whole(), games=2)
        self.assertEqual([game.number for game in self.kept.finished], [2, 3])
        told = [text for text in self.told if "game 1 was stopped, and does not count" in text]
        self.assertEqual(len(told), 1)  # once, and not for each later game
        self.assertIn(str(self.path / "0001.journal"), told[0])

    def test_what_fails_is_told_and_tried_again_or_ends_the_room_at_its_first_game(self) -> None:
        faults = [LobbyError("port 7000: Address already in use"),
                  OSError(24, "Too many open files"), program.ProgramError("no program")]
        self.play(whole(), *faults, whole(), games=2)
        self.assertEqual([game.number for game in self.kept.finished], [1, 2])
        self.assertEqual([text for text in self.told if "trying the next game again" in text], [
            f"{text}; trying the next game again in 0.01 seconds" for text in
            ("port 7000: Address already in use", "Too many open files", "no program")])
        told, finished = self.told[:], self.kept.finished[:]
        with self.assertRaisesRegex(LobbyError, "port 7000"):  # at the first game it ends the room
            self.play(faults[0], whole())
        self.assertEqual((self.told, self.kept.finished), (told, finished))

    # The end of a room.

    def test_what_closing_does_at_each_time(self) -> None:
        for phase, at_once, due in (
                (Phase.GATHERING, False, "stop"), (Phase.STARTING, False, "stop"),
                (Phase.PLAYING, False, None), (Phase.PLAYING, True, "stop"),
                (Phase.ENDING, False, "end"), (Phase.ENDING, True, "end")):
            with self.subTest(phase=phase, at_once=at_once):
                made, texts = self.room(), list[str]()

                def play(lobby: Any, take: Callable[[Event], None]) -> int:
                    lobby.control.phase = phase
                    texts.append(made.close(at_once))
                    called = [name for name in ("stop", "end")
                              if getattr(lobby.control, name).called]
                    self.assertEqual(called, [due] if due else [])
                    return STOPPED

                self.lobbies.plays = [play]
                made.run()  # it plays no other game
                self.assertEqual(["closes after this game" in text for text in texts],
                                 [due is None])

    def test_a_room_that_is_closed_between_games_or_while_it_makes_one_plays_none(self) -> None:
        made = self.room()
        self.assertEqual(made.close(False), "")
        made.run()
        self.assertEqual(self.lobbies.made, [])
        for at_once in (False, True):
            made = self.room()

            def make(seed: int) -> str:
                made.close(at_once)
                return FIRST

            def play(lobby: Any, take: Callable[[Event], None]) -> int:
                lobby.control.stop.assert_called_once_with()
                return STOPPED

            self.make.side_effect, self.lobbies.plays = make, [play]
            made.run()
        self.assertEqual(self.kept.finished, [])

    def test_while_the_page_shows_the_last_scores_the_first_ctrl_c_ends_the_room(self) -> None:
        made = self.room(games=1)

        def wait(is_stopped: Callable[[], bool]) -> None:
            self.assertFalse(is_stopped())
            made.close(False)
            self.assertTrue(is_stopped())

        self.board.close = mock.Mock(side_effect=wait)
        self.lobbies.plays = [whole()]
        made.run()
        self.board.close.assert_called_once()

    def test_a_disk_that_takes_no_more_loses_no_game_until_the_room_is_stopped(self) -> None:
        faults = [FULL] * 3

        def write(file: Path, data: bytes) -> None:
            if faults:
                raise faults.pop()
            write_whole(file, data)

        with mock.patch("geesefuton.practice.folder.write_whole", write):
            self.play(whole(came(2), events.Began(60.0, (2,))))
        self.assertEqual([game.players.index("seat2") for game in self.kept.finished], [2])
        self.assertEqual(len([text for text in self.told if "cannot keep game" in text]), 1)
        self.kept.close()
        self.kept = self.folder()
        self.assertEqual([game.scores for game in self.kept.finished], [SCORES])
        self.told.clear()
        made = self.room()

        def keep(game: Finished, log: bytes) -> None:
            made.close(True)
            raise FULL

        self.patch(self.kept, "keep", keep)
        self.lobbies.plays = [whole()]
        made.run()
        self.assertEqual(len(self.told), 1)
        self.assertIn("cannot keep game", self.told[0])

    # Teams.

    @staticmethod
    def teams() -> List[Team]:
        return [Team("Red Foxes", "redfoxes", "r3d"), Team("Blue", "blue", "b7")]

    def test_teams_move_on_by_a_seat_and_seats_without_teams_keep_their_words(self) -> None:
        self.play(*[whole() for _ in range(9)], teams=self.teams())
        seats = []
        for lobby in self.lobbies.made:
            keys, words = lobby.settings.keys, read_game(lobby.settings.game.read_text()).words
            self.assertEqual(set(keys), {"r3d", "b7"})
            self.assertEqual([words[seat] for seat in keys.values()], ["redfoxes", "blue"])
            self.assertEqual(len(set(words)), 8)
            seats.append(keys["r3d"])
        moves = {(after - before) % 8 for before, after in zip(seats, seats[1:])}
        self.assertIn(moves, ({1}, {7}))
        self.lobbies.made.clear()
        self.play(whole(), whole())  # without teams
        for lobby in self.lobbies.made:
            self.assertEqual(lobby.settings.keys, {f"seat{seat}": seat for seat in range(8)})
            self.assertEqual(list(read_game(lobby.settings.game.read_text()).words), WORDS)

    def test_a_new_word_of_a_team_is_kept_for_the_next_games(self) -> None:
        def changed(lobby: Any, take: Callable[[Event], None]) -> int:
            lobby.settings.keys["n3w"] = lobby.settings.keys.pop("r3d")
            return whole()(lobby, take)

        self.play(changed, whole(), teams=self.teams())
        self.assertEqual(set(self.lobbies.made[1].settings.keys), {"n3w", "b7"})
        self.assertEqual(json.loads((self.path / "words.json").read_bytes()), {"redfoxes": "n3w"})

    def test_teams_are_told_and_shown_by_their_names(self) -> None:
        seat = self.seat_of("redfoxes")
        self.play(begun(seat), whole(), teams=self.teams())
        self.assertEqual(self.kept.finished[0].players[seat], "redfoxes")
        self.assertEqual(self.told[0], "game 1 of `tac make 7` counts; first of 1: Red Foxes")
        last = self.shown_rooms()[-1]
        self.assertEqual(last["table"][0][1], "Red Foxes")
        self.assertIn("Blue", [each["name"] for each in last["seats"]])
        for state in self.shown():
            self.assertNotIn("r3d", json.dumps([state["names"], state["room"]]))

    def seat_of(self, key: str) -> int:
        with mock.patch.object(self.kept, "keep"):
            self.play(whole(), teams=self.teams())
        words = read_game(self.lobbies.made.pop().settings.game.read_text()).words
        self.told.clear()
        self.board.show.reset_mock()
        return words.index(key)
