"""The live page: what it serves, and to whom."""

import asyncio
import json
import os
import re
import resource
import signal
import socket
import subprocess
import time
import unittest
import urllib.error
import urllib.request
from pathlib import Path
from typing import Any, Dict, List, Optional, Tuple
from unittest import mock

from geesefuton.hosting import live
from geesefuton.hosting.live import NICE, PAGE, Live, _arguments
from geesefuton.hosting.projection import Projection, View
from geesefuton.hosting.recovery import RecoveryError
from geesefuton.hosting.viewers import BEAT
from geesefuton.network.pages import Faults, read_page
from geesefuton.processes import free_port
from tests.package.cases import MOST, Case, FolderCase, is_listening
from tests.package.helpers import COMMAND, DATA
from tests.package.journals import HEAD, LINES, nights_of, place_of

TICK_9 = place_of(9)
PORT = {"port": 7000, "address": "10.0.0.1", "seat": True}
BEGUN, REST = "\n".join(LINES[:TICK_9 + 1]) + "\n", "\n".join(LINES[TICK_9 + 1:]) + "\n"


class Page(unittest.TestCase):
    def test_nothing_is_loaded_from_elsewhere(self) -> None:
        text = read_page(PAGE).decode()
        self.assertEqual(re.findall(r"https?://[^\"\s]+", text), ["http://www.w3.org/2000/svg"])
        for word in ("src=", "@import", "url(", "innerHTML", "insertAdjacent", "eval("):
            self.assertNotIn(word, text)
        self.assertEqual(re.findall(r"<link[^>]*>", text), ['<link rel="icon" href="data:,">'])

    def test_a_screen_waits_for_two_beats_until_it_says_that_it_hears_nothing(self) -> None:
        quiet = re.findall(rb"QUIET = (\d+)", read_page(PAGE))
        self.assertEqual(len(quiet), 1)
        self.assertGreaterEqual(int(quiet[0]), 2 * 1000 * BEAT)


def last_of(text: bytes) -> Dict[str, Any]:
    state: Dict[str, Any] = json.loads(re.findall(rb"data: (\{.*\})", text)[-1])
    return state


def projection(tick: int) -> Projection:
    return Projection(tick, [[tick, 0, 0, 0]] * 8, [[tick, 0, 0, tick]] * 8, [], [], [], [], [])


class LiveCase(Case):
    """Pages of a game.

    Attributes:
        told: What the host is told.
    """

    def setUp(self) -> None:
        self.told: List[str] = []

    def live(self, late: int, *lines: str, begins: Optional[float] = None,
             joining: Optional[Dict[str, Any]] = None) -> Live:
        made = Live(mock.Mock(), View(late, False), mock.Mock(), mock.Mock(show=mock.AsyncMock()),
                    Faults(self.told.append), joining, begins)
        made._read("\n".join(lines))
        return made

    def shown(self, made: Live) -> List[Dict[str, Any]]:
        """The states that viewers were sent so far."""
        return [json.loads(call[0][0]) for call in made._viewers.show.call_args_list]

    def last(self, made: Live) -> Dict[str, Any]:
        asyncio.run(made.show())
        return self.shown(made)[-1]


class Following(LiveCase):
    def setUp(self) -> None:
        super().setUp()
        self.patch("hosting.live.LOOK", 0.0)
        self.patch("hosting.live.EACH", 0.01)

    def test_which_projection_may_be_shown_whole(self) -> None:
        for late, ticks, now, is_final, due in (
                (0, [3, 4, 5], 6, False, 5), (6, [3, 4, 5], 8, False, None),
                (6, [3, 4, 5], 9, False, 3), (6, [3, 9, 10, 15], 15, False, 9),
                (54, [0, 10, 54], 54, False, None), (6, [], 9, False, None),
                (0, [], 9, False, None), (0, [0, 53, 54], 54, True, 54),
                (6, [0, 53, 54], 54, True, 54), (54, [0, 53, 54], 54, True, 54)):
            made = self.live(late)
            for tick in ticks:
                made._reader.tick = tick
                made._add(projection(tick))
            made._reader.tick, made._is_final = now, is_final
            shown = made._secret()
            self.assertEqual(shown and shown.tick, due, (late, ticks, now))

    def test_of_each_tick_one_projection_is_kept(self) -> None:
        live = self.live(6)
        for tick in (3, 3, 3, 4, 4, 5, 9, 9):
            live._add(projection(tick))
        self.assertEqual([kept.tick for kept in live._older], [3, 4, 5, 9])

    def test_a_line_that_comes_in_pieces_is_read_once_it_is_whole(self) -> None:
        text = (BEGUN + REST).encode("ascii")
        made = self.live(6)
        made._journal = mock.Mock(read=mock.Mock(side_effect=[
            *(text[at:at + 1000] for at in range(0, len(text), 1000)), b""]))
        asyncio.run(made.follow())
        self.assertEqual((made._reader.lines, made._reader.status), (len(LINES), 0))
        self.assertTrue(made.is_over())

    def test_the_time_of_the_welcome_is_that_of_the_journal(self) -> None:
        head, begun = BEGUN.encode("ascii").split(b"\n", 1)  # until 900 milliseconds
        made = self.live(6)
        made._journal = mock.Mock(read=mock.Mock(side_effect=[
            b"", head + b"\n", begun, b"", b'{"over":0,"t":950}\n']))
        asyncio.run(made.follow())
        assert made._zero is not None
        since = time.monotonic() - made._zero
        self.assertLessEqual(0.9, since)
        empty, waiting, *states = self.shown(made)
        self.assertEqual(empty, {"phase": "empty", "over": False})
        self.assertEqual((waiting["phase"], "elapsed" in waiting), ("waiting", False))
        self.assertEqual([(state["phase"], state["status"]) for state in states],
                         [("running", None), ("running", 0)])
        for state in states:
            self.assertTrue(900 <= state["elapsed"] <= 1000 * since)

    def test_a_state_is_shown_once(self) -> None:
        made = self.live(6, LINES[0])
        for _ in range(2):
            asyncio.run(made.show())
        state, = self.shown(made)
        self.assertEqual((state["phase"], state["flights"], "elapsed" in state, "hotels" in state),
                         ("waiting", [], False, False))
        made._read("\n".join(LINES[1:TICK_9 + 1]))
        for _ in range(2):
            asyncio.run(made.show())
        self.assertEqual([state["tick"] for state in self.shown(made)], [0, 9])
        self.assertEqual(len(self.shown(made)[1]["hotels"]), 8)
        self.assertEqual({call[0][1] for call in made._viewers.show.call_args_list}, {False})

    def projected(self, made: Live, *faults: Optional[Exception]) -> List[Any]:
        """How projections were made until the game was over."""
        asked: List[Any] = []
        rest = iter(LINES[TICK_9 + 1:])

        def project(reader: Any, nights: Any, player: Any) -> Projection:
            self.assertIsNot(reader, made._reader)  # more is added meanwhile
            self.assertEqual(nights, nights_of(reader))
            asked.append((reader.tick, player is made._player))
            fault = faults[len(asked) - 1] if len(asked) <= len(faults) else None
            made._read("\n".join(next(rest) for _ in range(60)) if len(asked) < 3
                       else "\n".join(rest))
            if fault:
                raise fault
            return projection(reader.tick)

        with mock.patch("geesefuton.hosting.live.project", project):
            asyncio.run(asyncio.wait_for(made.project(), MOST))
        return asked

    def test_projections_are_made_until_the_game_is_over(self) -> None:
        for late in (0, 6):
            made = self.live(late, *LINES[:TICK_9 + 1])
            asked = self.projected(made)
            self.assertEqual([entry[1:] for entry in asked], [(True,)] * 4)
            self.assertEqual((asked[0][0], asked[-1][0], self.told), (9, 54, []))
            states = self.shown(made)
            self.assertEqual((states[-1]["phase"], states[-1]["agents"][0]["score"]),
                             ("over", [54, 0, 0, 54]))
            first = states[0]["agents"][0].get("score")
            self.assertEqual(first, None if late else [9, 0, 0, 9])
            finals = [call[0][1] for call in made._viewers.show.call_args_list]
            self.assertEqual((finals[-1], finals.count(True)), (True, 1))

    def test_why_a_projection_cannot_be_made_is_told_once(self) -> None:
        for faults, at, why in (([None, RecoveryError("no game")], 1, "no game"),
                                ([OSError(24, "Too many open files")] * 3, 0,
                                 "Too many open files")):
            self.told.clear()
            made = self.live(0, *LINES[:TICK_9 + 1])
            asked = self.projected(made, *faults)
            self.assertEqual((len(asked), self.told),
                             (4, [f"live: no scores at tick {asked[at][0]}: {why}"]))
            self.assertEqual(self.shown(made)[-1]["shown"], 54)

    def test_a_journal_that_nobody_writes_any_more_ends_the_game(self) -> None:
        cut = (BEGUN + '{"a":3,"q":').encode("ascii")  # a full disk
        for text, due in ((b"", {"phase": "empty", "over": True}), (cut, None)):
            made = self.live(6)
            pieces = iter([text[:1000], text[1000:]])
            made._journal = mock.Mock(read=lambda _: next(pieces, b""))
            made.cut()

            async def work() -> None:
                await asyncio.gather(made.follow(), made.project())

            project = self.patch("hosting.live.project", return_value=projection(9))
            asyncio.run(asyncio.wait_for(work(), MOST))
            self.assertTrue(made.is_over())
            last = made._viewers.show.call_args
            self.assertTrue(last[0][1])
            state = json.loads(last[0][0])
            if due:
                self.assertEqual((state, project.call_count), (due, 0))
            else:
                self.assertEqual((state["phase"], state["tick"], state["status"]),
                                 ("over", 9, None))
                self.assertEqual(state["agents"][0]["score"], [9, 0, 0, 9])

    def test_a_game_that_ends_before_it_begins(self) -> None:
        made = self.live(0, LINES[0], '{"over":5}')
        self.assertEqual(self.projected(made), [])
        state, = self.shown(made)
        self.assertEqual((state["phase"], state["status"]), ("over", 5))


class Clock(LiveCase):
    """When a page makes projections, and what it shows of time, which passes only while it waits.

    Attributes:
        now: The time in seconds.
    """

    def setUp(self) -> None:
        super().setUp()
        self.now, sleep = 1000.0, asyncio.sleep

        async def wait(seconds: float) -> None:
            self.now += max(seconds, 0.001)
            await sleep(0)

        self.patch("hosting.live.time.monotonic", lambda: self.now)
        self.patch("hosting.live.asyncio.sleep", wait)

    def page(self, *lines: str, late: int = 6, begins: Optional[float] = None,
             **head: Any) -> Live:
        """A page on these lines of a journal, after its first line."""
        return self.live(late, json.dumps({**HEAD, **head}), *lines, begins=begins, joining=PORT)

    def between(self, pace: int, took: float, within: float) -> List[float]:
        """The seconds between the beginnings of projections, each of which takes some seconds,
        while the journal goes on all the time."""
        made, begun = self.page('{"begin":[]}', '{"tick":0,"t":0}', pace=pace), list[float]()
        end = self.now + within

        def project(reader: Any, nights: Any, player: Any) -> Any:
            begun.append(self.now)
            self.now += took
            made._read('{"over":0}' if self.now > end else '{"gone":1,"t":1}')
            return projection(0)

        with mock.patch.object(live, "project", project):
            asyncio.run(made.project())
        return [after - before for before, after in zip(begun[:-1], begun[1:-1])]

    def test_one_is_made_each_second_or_shorter_tick_and_in_half_of_the_time_at_most(self) -> None:
        for pace, took, within, least, most in (
                (2000, 0.05, 20.0, 0.99, 1.15), (60000, 0.05, 20.0, 0.99, 1.15),
                (300, 0.05, 20.0, 0.29, 0.45), (2000, 4.0, 200.0, 7.9, 8.2)):
            between = self.between(pace, took, within)
            self.assertGreater(len(between), 15)
            for seconds in between:
                self.assertTrue(least <= seconds <= most, (pace, seconds))

    def test_none_is_made_while_nothing_changes(self) -> None:
        made = self.page('{"begin":[]}', '{"tick":0,"t":0}')
        project = self.patch("hosting.live.project", return_value=projection(0))

        asyncio.run(self.read_on(made, '{"over":0}'))
        self.assertEqual(project.call_count, 2)  # the first, and that of the end

    @staticmethod
    async def read_on(made: Live, *texts: str) -> None:
        """Projections are made while each text is read after a while."""
        projecting = asyncio.ensure_future(made.project())
        for text in texts:
            for _ in range(200):
                await asyncio.sleep(0)
            made._read(text)
        await projecting

    def test_what_is_shown_after_the_game_is_not_made_before(self) -> None:
        made = self.page(*LINES[1:TICK_9 + 1], late=54)
        counts: List[int] = []
        project = self.patch("hosting.live.project", side_effect=lambda *_: (
            counts.append(made._reader.status is None), projection(54))[1])
        asyncio.run(self.read_on(made, "\n".join(LINES[TICK_9 + 1:-1]), LINES[-1]))
        self.assertEqual((project.call_count, counts, len(made._older)), (1, [False], 0))
        self.assertEqual(self.shown(made)[-1]["agents"][0]["score"], [54, 0, 0, 54])

    def test_the_journal_is_looked_at_five_times_a_second_and_read_on_at_once(self) -> None:
        made, looked = self.page(), list[float]()
        pieces = [b"", b"\n" * live.PIECE, b"\n" * live.PIECE, b"\n", b""]

        def read(most: int) -> bytes:
            looked.append(self.now)
            self.assertEqual(most, live.PIECE)
            return pieces.pop(0) if pieces else b'{"over":0}\n'

        made._journal = mock.Mock(read=read)
        asyncio.run(made.follow())
        between = [after - before for before, after in zip(looked, looked[1:])]
        for seconds, due in zip(between, (0.2, 0.01, 0.01, 0.2, 0.2)):
            self.assertAlmostEqual(seconds, due)

    # What is shown of time.

    def test_how_to_join_is_shown_before_the_game_alone(self) -> None:
        made = self.page()
        state = self.last(made)
        self.assertEqual((state["phase"], {name: state[name] for name in PORT}), ("waiting", PORT))
        made._read('{"begin":[]}\n{"tick":0,"t":0}')
        self.assertFalse(set(PORT) & set(self.last(made)))

    def test_the_time_until_the_game_begins_and_since_it_has_begun(self) -> None:
        made = self.page(begins=1030.5)
        self.assertEqual(self.last(made)["begins"], 30500)
        self.now += 20
        made._read('{"here":1,"from":"x"}')
        self.assertEqual(self.last(made)["begins"], 10500)
        self.now += 10
        made._read('{"begin":[]}\n{"tick":0,"t":0}\n{"gone":1,"t":250}')
        self.now += 2.5
        state = self.last(made)
        self.assertEqual((state["elapsed"], "begins" in state), (2750, False))
        made._read('{"tick":1,"t":2750}')
        self.now += 1
        made._shown = ""
        self.assertEqual(self.last(made)["elapsed"], 3750)

    def test_the_clock_of_a_page_that_is_started_late_is_that_of_the_last_piece(self) -> None:
        made = self.page('{"begin":[]}', '{"tick":0,"t":0}', '{"tick":1,"t":8000}')
        made._read('{"tick":2,"t":16000}')
        self.now += 0.5
        self.assertEqual(self.last(made)["elapsed"], 16500)

    def test_a_journal_has_stopped_three_seconds_after_a_tick_was_due_in_a_game_that_goes_on(
            self) -> None:
        made = self.page(LINES[1], pace=2000)
        for seconds, lines, due in (
                (1000.0, ['{"begin":[]}', '{"tick":0,"t":0}'], False),  # agents are waited for
                (2.0, [], False), (2.9, [], False), (0.2, [], True), (60.0, [], True),
                (0.0, ['{"tick":1,"t":9}'], True), (0.0, [], False), (60.0, [], True),
                (0.0, ['{"tick":54,"t":9}'], True), (60.0, [], False),  # nothing more is due
                (0.0, ['{"over":137}'], False), (60.0, [], False)):  # the server has failed
            self.now += seconds
            self.assertEqual(self.last(made)["stalled"], due)
            if lines:
                made._read("\n".join(lines))

    def test_what_is_shown_later_is_not_older_than_it_has_to_be(self) -> None:
        made = self.page(*LINES[1:place_of(9) + 1])
        for tick in (1, 3):
            made._add(projection(tick))
        self.assertEqual(self.last(made)["shown"], 3)


class Words(unittest.TestCase):
    def test_words(self) -> None:
        for words, late, names in (([], 6, False), (["--late", "0"], 0, False),
                                   (["--late", "54", "--names"], 54, True)):
            with mock.patch("sys.argv", ["live", "my.journal", "7080", *words]):
                self.assertEqual(vars(_arguments()), {
                    "journal": Path("my.journal"), "port": 7080, "late": late, "names": names})
        for words in (["0"], ["65536"], ["7080", "--late", "-1"], ["7080", "--until"]):
            with mock.patch("sys.argv", ["live", "my.journal", *words]), \
                    mock.patch("geesefuton.arguments.tell"), self.assertRaises(SystemExit):
                _arguments()


class Serving(FolderCase):
    """A page on a journal that grows. The stand-in for the program plays no scripts, so there are
    no scores."""

    def setUp(self) -> None:
        super().setUp()
        self.journal, self.port = self.folder / "journal", free_port()

    def start(self, *more: str, **how: Any) -> "subprocess.Popen[bytes]":
        page = subprocess.Popen(
            [*COMMAND, "live", str(self.journal), str(self.port), *more],
            env={**os.environ, "TAC": str(DATA.parent / "fake_tac.py")}, stdin=subprocess.DEVNULL,
            stderr=subprocess.PIPE, **how)
        assert page.stderr is not None
        for end in (page.stderr.close, page.wait, page.kill):  # the last one first
            self.addCleanup(end)
        return page

    def get(self, path: str) -> "tuple[bytes, str]":
        self.until(lambda: is_listening(self.port))
        with urllib.request.urlopen(f"http://127.0.0.1:{self.port}{path}", timeout=MOST) as got:
            return got.read(), got.headers["Content-Security-Policy"]

    def screen(self) -> Any:
        link = self.enter(socket.create_connection(("127.0.0.1", self.port)))
        link.settimeout(MOST)
        link.sendall(b"GET /events HTTP/1.1\r\nHost: x\r\n\r\n")
        return self.enter(link.makefile("rb"))

    def go_on(self) -> None:
        with self.journal.open("a") as file:
            file.write(REST)

    def test_a_game_that_goes_on_and_ends(self) -> None:
        self.journal.write_text(BEGUN)
        self.start()
        page, policy = self.get("/")
        self.assertEqual(page, read_page(PAGE))
        self.assertIn("default-src 'none'", policy)
        with self.assertRaises(urllib.error.HTTPError) as refused:
            self.get("/../journal")
        refused.exception.close()
        reads = [self.screen() for _ in range(4)][:3]  # and one that hangs
        states = [self.state(read) for read in reads]
        self.assertEqual({state["phase"] for state in states}, {"running"})
        self.assertEqual({(state["tick"], state["late"]) for state in states}, {(9, 6)})
        self.assertNotIn("score", states[0]["agents"][0])
        self.go_on()
        for read in reads:
            text = read.read()  # until the page ends it
            self.assertIn(b"event: end", text)
            last = last_of(text)
            self.assertEqual((last["phase"], last["status"]), ("over", 0))

    @staticmethod
    def state(read: Any) -> Dict[str, Any]:
        state: Dict[str, Any] = json.loads(next(
            line[6:] for line in read if line.startswith(b"data: {")))
        return state

    def test_silent_links_neither_end_the_page_nor_hide_it(self) -> None:
        self.journal.write_text(BEGUN)
        few = 64  # open files
        page = self.start(preexec_fn=lambda: resource.setrlimit(
            resource.RLIMIT_NOFILE, (few, few)))
        self.get("/")
        for _ in range(3 * few):
            self.enter(socket.create_connection(("127.0.0.1", self.port)))
        read = self.screen()
        self.assertEqual(self.state(read)["tick"], 9)
        self.go_on()
        self.assertEqual(last_of(read.read())["phase"], "over")  # until the page ends it
        self.assertEqual(self.get("/")[0], read_page(PAGE))
        self.assertIsNone(page.poll())
        page.terminate()
        told = page.communicate(timeout=MOST)[1].decode().split("\n")
        self.assertLess(len(told), 6, told)

    def test_it_stays_until_it_is_stopped(self) -> None:
        self.journal.write_text(BEGUN + REST)
        page = self.start("--names", "--late", "0")
        state = last_of(self.get("/events")[0])
        self.assertEqual((state["phase"], state["late"]), ("over", 0))
        self.assertEqual([agent["name"] for agent in state["agents"]][:2], ["red7k", "orange3x"])
        self.screen().readline()
        own = os.getpriority(os.PRIO_PROCESS, 0)
        self.assertEqual(os.getpriority(os.PRIO_PROCESS, page.pid), min(19, own + NICE))
        page.send_signal(signal.SIGTERM)
        told = page.communicate(timeout=MOST)[1]
        self.assertEqual(page.returncode, 143)
        self.assertNotIn("Traceback", told.decode())

    def test_errors(self) -> None:
        def told(*more: str) -> Tuple[int, str]:
            page = self.start(*more)
            text = page.communicate(timeout=MOST)[1].decode()
            return page.returncode, text

        self.assertEqual(told(), (1, f"live: {self.journal}: No such file or directory\n"))
        self.journal.write_text("hey\n")
        status, text = told()
        self.assertEqual((status, text.count("\n")), (1, 1))
        self.assertIn(f"live: {self.journal}: line 1 is not a journal line", text)
        self.journal.write_text(BEGUN + REST)
        with socket.create_server(("", self.port)):
            status, text = told()
        self.assertEqual((status, text.count("\n")), (1, 1))
        self.assertIn(f"live: port {self.port}: Address already in use", text)
        self.assertEqual(told("--late", "55")[0], 2)
