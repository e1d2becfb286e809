"""The page of a practice room: what its screens are sent, by a clock that the test moves."""

import asyncio
import json
import re
from pathlib import Path
from typing import Any, Callable, Dict, List, Optional, Sequence, Tuple
from unittest import mock

from geesefuton.hosting.journal import JournalError
from geesefuton.hosting.live import PAGE
from geesefuton.hosting.viewers import Viewers
from geesefuton.network.pages import Faults, read_page
from geesefuton.practice import page
from geesefuton.practice.page import RoomPage
from tests.package.helpers import TOP
from tests.package.test_room_folder import Case

Step = Tuple[float, Callable[[], None]]
ROOM, LIVE = read_page(TOP / "python/geesefuton/practice/room.html"), read_page(PAGE)


class Live:
    """Stands for the page of a game, which goes on until the test says that it is over.

    Attributes:
        made: The journals and the views for which one was made.
        is_done: Whether the last one is over.
        fault: What its reading fails with.
        fails: Whether its projections do.
    """

    made: List[Tuple[str, Any]] = []
    is_done = False
    fault: Optional[Exception] = None
    fails = False

    def __init__(self, journal: Any, view: Any, player: Any, screens: Any, faults: Any) -> None:
        Live.made.append((Path(journal.name).name, view))
        Live.is_done = False

    def is_over(self) -> bool:
        return Live.is_done

    async def follow(self) -> None:
        if Live.fault is not None:
            raise Live.fault
        await asyncio.Event().wait()

    def results(self) -> List[Tuple[str, int]]:
        return [("seat0", 700), ("seat1", 300)]

    async def project(self) -> None:
        if Live.fails:
            raise KeyError("hotel 9")
        while not Live.is_done:
            await asyncio.sleep(0.1)


class Pages(Case):
    def setUp(self) -> None:
        super().setUp()
        self.now, self.told = 1000.0, list[str]()
        self.steps: List[Step] = []
        given = {"board": self.place / "board", "page": 7080, "port": 7011, "pace": 500, "late": 6,
                 "address": "10.0.0.1"}
        self.page = RoomPage(given, mock.Mock(), Faults(self.told.append))
        self.until, sleep = 0.0, asyncio.sleep
        self.last: List[int] = []  # which states were said to be the last one
        self.shown: List[Tuple[float, Dict[str, Any], bytes]] = []
        Live.made, Live.fault, Live.fails = [], None, False

        async def wait(seconds: float) -> None:
            self.now += seconds
            while self.steps and self.steps[0][0] <= self.now - 1000.0:
                self.steps.pop(0)[1]()
            if self.now - 1000.0 > self.until:
                raise asyncio.CancelledError
            for _ in range(3):
                await sleep(0)

        async def show(viewers: RoomPage, state: bytes, is_final: bool) -> None:
            self.last += [len(self.shown)] * is_final
            self.shown.append((self.now - 1000.0, json.loads(state), viewers.page))

        for place_of, name, what in (
                (page, "Live", Live), (page.asyncio, "sleep", wait), (Viewers, "show", show),
                (page.time, "monotonic", lambda: self.now), (page.time, "time", lambda: self.now)):
            self.patch(place_of, name, what)

    def board(self, journal: Optional[str] = None, names: Sequence[str] = (),
              begins: Optional[float] = None, is_over: bool = False, **room: Any) -> None:
        file = self.place / (journal or "")
        (self.place / "board").write_text(json.dumps({
            "journal": journal and str(file), "names": names, "is_over": is_over,
            "words": {"red7k": "red"}, "room": {"phase": "room", "begins": begins, **room}}))

    def run_it(self, until: float, *steps: Step) -> None:
        """Runs the page for some seconds, in which the steps happen at their times."""
        with self.assertRaises(asyncio.CancelledError):
            self.run_to_its_end(*steps, until=until)

    def run_to_its_end(self, *steps: Step, until: float = 60.0) -> None:
        """Runs the page until it ends by itself, while the steps happen."""
        self.until, self.steps = until, list(steps)
        asyncio.run(self.page.follow())

    def journal(self, name: str) -> str:
        (self.place / name).touch()
        return name

    def over(self) -> None:
        Live.is_done = True
        self.board()

    def test_the_room_is_shown_once_with_the_seconds_until_its_game(self) -> None:
        self.board(game=1)
        self.run_it(6.0, (2.0, lambda: self.board(begins=1004.0, game=1)))
        self.assertEqual([(state["left"], state["game"]) for _, state, _ in self.shown],
                         [(None, 1), (2, 1), (1, 1), (0, 1)])
        self.assertEqual({shown for *_, shown in self.shown}, {ROOM})
        self.assertEqual({state["join"] for _, state, _ in self.shown},
                         {"http://10.0.0.1:7080/join"})
        self.assertTrue(2.0 <= self.shown[1][0] <= 2.3)

    def test_starters_are_handed_out_with_the_port_of_the_room_in_them(self) -> None:
        assert self.page.handouts is not None
        given = self.page.handouts.answer("/starter.py", "10.0.0.1:7080")
        assert given is not None
        self.assertEqual(re.findall("(?m)^(?:PORT|AGAIN) = ([a-zA-Z0-9]+)", given.body.decode()),
                         ["7011", "True"])

    def test_a_game_is_shown_until_its_scores_have_stayed(self) -> None:
        self.board()
        self.run_it(40.0, (2.0, lambda: self.board(self.journal("0001.journal"), ["red"])),
                    (10.0, self.over))
        self.assertEqual([(name, view.late, view.by_word) for name, view in Live.made],
                         [("0001.journal", 6, True)])
        first, again = self.shown
        self.assertEqual((first[0], first[2], again[2]), (0.0, ROOM, ROOM))
        self.assertTrue(30.0 <= again[0] <= 30.8, again[0])

    def test_the_next_game_is_shown_at_once_and_the_room_after_one_that_was_stopped(self) -> None:
        self.board(self.journal("0001.journal"))
        self.run_it(8.0, (3.0, self.over),
                    (5.0, lambda: self.board(self.journal("0002.journal"))))
        self.assertEqual([name for name, _ in Live.made], ["0001.journal", "0002.journal"])
        self.assertEqual(self.shown, [])
        begun = self.now - 1000.0
        self.run_it(begun + 20.0, (begun + 6.0, self.board))  # one that was stopped stays a moment
        (at, _, shown), = self.shown
        self.assertTrue(9.0 <= at - begun <= 9.8, at)
        self.assertEqual((shown, [name for name, _ in Live.made[2:]]), (ROOM, ["0002.journal"]))

    def test_seats_are_called_by_their_players_as_these_come(self) -> None:
        sent: List[Any] = []

        def send() -> None:
            state = {"phase": "running", "agents": [{"name": "x"}, {"name": "y"}]}
            sent.append(asyncio.ensure_future(self.page.show(json.dumps(state).encode(), True)))

        name = self.journal("0001.journal")
        self.board(name, ["red", "house planner"])
        self.run_it(5.0, (1.0, send), (2.0, lambda: self.board(name, ["red", "blue"])), (3.0, send))
        self.assertEqual([[agent["name"] for agent in state["agents"]]
                          for _, state, _ in self.shown],
                         [["red", "house planner"], ["red", "blue"]])
        self.assertEqual({shown for *_, shown in self.shown}, {LIVE})

    def test_who_has_played_by_hand_gets_the_scores_once(self) -> None:
        tables = [mock.Mock(results=[], seat=mock.Mock(phase=phase)) for phase in ("over", "idle")]
        tables[0].end.side_effect = lambda results: setattr(tables[0], "results", results)
        self.page.site.tables.extend(tables)
        name = self.journal("0001.journal")
        self.board(name, ["red", "house planner"])
        self.run_it(9.0, (3.0, lambda: setattr(Live, "is_done", True)))
        tables[0].end.assert_called_once_with([("red", 700), ("house planner", 300)])
        tables[1].end.assert_not_called()
        self.assertEqual((self.page.site.host.port, self.page.site.host.names),
                         (7011, {"red7k": "red"}))

    def test_what_cannot_be_shown_of_a_game_is_told_once_and_the_room_is_shown(self) -> None:
        for name, fault, fails, told in (
                ("none.journal", None, False, "No such file or directory"),
                (self.journal("0001.journal"), JournalError("line 1 is not a journal line"), False,
                 "line 1 is not a journal line"),
                (self.journal("0002.journal"), None, True, "'hotel 9'")):
            with self.subTest(name=name):
                Live.fault, Live.fails = fault, fails
                self.board(name)
                self.run_it(4.0 + self.now - 1000.0)
                self.assertEqual(self.told, [f"room: cannot show {self.place / name}: {told}"])
                self.assertEqual([shown for *_, shown in self.shown], [ROOM])
                self.told.clear()
                self.shown.clear()

    def test_once_the_room_is_over_screens_get_the_last_scores_and_the_page_ends(self) -> None:
        async def score() -> None:
            await self.page.show(b'{"phase":"over","agents":[]}', True)

        def over() -> None:
            asyncio.ensure_future(score())
            Live.is_done = True

        name = self.journal("0001.journal")
        self.board(name)
        self.run_to_its_end((3.0, lambda: self.board(name, is_over=True)), (4.0, over))
        self.assertEqual([(state["phase"], shown) for _, state, shown in self.shown],
                         [("over", LIVE)] * 2)
        self.assertEqual(self.last, [1])
        self.assertTrue(4.0 <= self.shown[-1][0] <= 4.8, self.shown)

    def test_a_file_that_is_not_there_is_waited_for_and_a_room_without_a_game_ends(self) -> None:
        self.run_to_its_end((1.0, self.board), (2.0, lambda: self.board(is_over=True)))
        self.assertEqual(self.told, ["room: cannot make the page: No such file or directory"])
        self.assertEqual(([shown for *_, shown in self.shown], self.last), ([ROOM] * 2, [1]))
