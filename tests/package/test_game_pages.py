"""The process of a game's pages, as the lobby starts it, and what they hand out to those who write
agents."""

import contextlib
import functools
import json
import os
import re
import shutil
import socket
import subprocess
import sys
import unittest
import urllib.request
from pathlib import Path
from typing import Any, Dict, List
from unittest import mock

from geesefuton import program
from geesefuton.hosting.handouts import STARTERS, Handouts
from geesefuton.hosting.page_process import AGAIN, LONGEST, STEADY, PageProcess, SideProcess
from geesefuton.hosting.settings import LobbySettings
from geesefuton.processes import Children, free_port, python_words
from tests.package.cases import MOST, Case, FolderCase, is_listening
from tests.package.helpers import DATA, JVM, TOP, variables
from tests.package.journals import LINES, place_of
from tests.package.seat_server import SeatServer, ask

GAME = TOP / "examples" / "first.game"
TICK_9 = place_of(9)
WORDS = ["red", "blue"]
RUN = {"starter.py": [sys.executable], "starter.mjs": ["node"],
       "Starter.java": ["java", *JVM]}


class Serving(FolderCase):
    """The process, before a stand-in of the lobby."""

    def setUp(self) -> None:
        super().setUp()
        self.server = SeatServer()
        self.addCleanup(self.server.close)
        told = self.enter(open(self.folder / "told", "w", encoding="utf-8"))
        self.enter(mock.patch.dict(os.environ, {"TAC": str(DATA.parent / "fake_tac.py")}))
        self.children = self.enter(Children())
        self.enter(mock.patch.object(self.children, "start", functools.partial(
            self.children.start, stderr=told)))
        self.port = free_port()
        self.journal = self.folder / "journal"
        self.journal.write_text("\n".join(LINES[:TICK_9 + 1]) + '\n{"a":1,"q')
        self.pages = PageProcess(self.children, LobbySettings(
            GAME, self.server.port, 500, None, page=self.port, advice=False), WORDS,
            self.server.port, self.journal)
        self.addCleanup(self.pages.end)
        self.seats = [f"http://127.0.0.1:{self.port}/{token}/" for _, token in self.pages.seats]

    def begin(self) -> None:
        """Starts the process, if there is none, and waits until it serves its pages."""
        self.assertEqual(self.pages.look(), "")
        self.until(lambda: is_listening(self.port))

    def open(self, seat: int, phase: str = "running", page: str = "") -> str:
        """A page of a seat, a new one unless it is given, once it is so far."""
        page = page or str(ask(self.seats[seat] + "open")["page"])
        self.until(lambda: ask(self.seats[seat] + "state", page=page)["phase"] == phase)
        return page

    def end(self) -> None:
        self.pages.wait(MOST, lambda: False)
        assert self.pages._process is not None
        self.assertEqual(self.pages._process.wait(MOST), 0)

    def test_its_end_is_the_lobbys_word_alone(self) -> None:
        self.begin()
        self.server.refusals["hello red"] = "refused taken"
        self.server.refusals["hello blue"] = "refused wrongword"
        self.open(1, "failed")
        self.open(0, "failed")  # the others are served as before
        self.assertTrue(self.pages.is_running())
        with urllib.request.urlopen(f"http://127.0.0.1:{self.port}/", timeout=MOST) as board:
            self.assertIn(b"<title>TAC Classic</title>", board.read())
        self.pages.close()
        self.end()

    def test_screens_and_players_get_the_last_state(self) -> None:
        self.begin()
        page = self.open(0)
        with socket.create_connection(("127.0.0.1", self.port)) as link, \
                link.makefile("rb") as screen:
            link.settimeout(MOST)
            link.sendall(b"GET /events HTTP/1.1\r\n\r\n")
            while not screen.readline().startswith(b"data: {"):
                pass
            self.server.closed = list(range(28))
            self.until(lambda: self.server.heard[-1] == "quit")
            self.pages.close()  # the journal has no end, as on a full disk
            self.open(0, "over", page)
            text = screen.read()
        state = json.loads(re.findall(rb"data: (\{.*\})", text)[-1])
        self.assertEqual((state["phase"], state["status"], state["tick"]), ("over", None, 9))
        self.end()

    def test_one_that_is_killed_serves_the_same_addresses_again(self) -> None:
        self.begin()
        self.open(0)
        self.pages._began -= STEADY
        process = self.pages._process
        assert process is not None
        process.kill()
        process.wait()
        self.assertEqual(self.pages.look(),
                         "the page ended with exit status -9, and was restarted")
        self.begin()
        self.open(0)
        with urllib.request.urlopen(f"http://127.0.0.1:{self.port}/play", b"red") as token:
            self.assertIn(f"/{token.read().decode()}/", self.seats[0])

    def test_nobody_reads_seat_words_or_lends_it_code(self) -> None:
        before = os.getcwd()
        os.chdir(self.folder)
        self.addCleanup(os.chdir, before)
        for name in ("argparse.py", "json.py", "geesefuton.py"):
            Path(name).write_text("open('taken', 'w')\nraise SystemExit(9)\n")
        with mock.patch.dict(os.environ, {"PYTHONPATH": str(self.folder)}):
            self.begin()
        assert self.pages._process is not None
        words = Path(f"/proc/{self.pages._process.pid}/cmdline").read_bytes()
        self.assertIn(b"game_pages", words)
        for secret in (*WORDS, *(token for _, token in self.pages.seats)):
            self.assertNotIn(secret.encode(), words)
        self.assertFalse(Path("taken").exists())


class Started(Case):
    """How a process beside the game is started, by a clock of the test."""

    def setUp(self) -> None:
        self.now, self.children = 100.0, mock.Mock()
        self.patch("hosting.page_process.time.monotonic", lambda: self.now)
        self.side = SideProcess(self.children, "the page", "geesefuton.hosting.live",
                                lambda: b"what it is told\n")
        self.children.start.side_effect = lambda *_, **__: mock.Mock(
            poll=mock.Mock(return_value=None))

    def end(self, status: int) -> None:
        process: Any = self.side._process
        process.poll.return_value = process.returncode = status

    def looks(self, *seconds: float) -> List[str]:
        """What the host is told after so many seconds each."""
        told = []
        for each in seconds:
            self.now += each
            told.append(self.side.look())
        return told

    def test_it_is_told_what_to_do_by_its_standard_input(self) -> None:
        self.assertEqual(self.looks(0), [""])
        words, how = self.children.start.call_args
        self.assertEqual(words[0], python_words("geesefuton.hosting.live"))
        self.assertEqual((how["stdin"], how["stdout"]), (subprocess.PIPE, subprocess.DEVNULL))
        assert self.side._process is not None and self.side._process.stdin is not None
        self.side._process.stdin.write.assert_called_once_with(  # type: ignore
            b"what it is told\n")

    def test_one_that_cannot_be_started_is_a_warning_and_is_tried_again(self) -> None:
        start = self.children.start.side_effect
        self.children.start.side_effect = OSError(24, "Too many open files")
        line = "the page cannot be started: Too many open files; the game goes on, and it is " \
               "tried again in {} s"
        self.assertEqual(self.looks(0, 1, AGAIN, 1), [line.format(5), "", line.format(10), ""])
        for _ in range(9):
            self.looks(LONGEST)
        self.assertEqual(self.looks(LONGEST), [line.format(60)])
        self.children.start.side_effect = start
        self.assertEqual(self.looks(LONGEST), [""])
        self.assertTrue(self.side.is_running())
        self.end(-9)  # and so is one that ends in the game
        self.children.start.side_effect = BlockingIOError(11, "Resource temporarily unavailable")
        self.assertEqual(self.looks(STEADY), [line.format(5).replace(
            "Too many open files", "Resource temporarily unavailable")])
        self.children.start.side_effect = start
        self.assertEqual(self.looks(AGAIN), [""])

    def test_one_that_ran_for_a_while_is_started_again_at_once(self) -> None:
        self.looks(0)
        for _ in range(3):
            self.end(1)
            self.assertEqual(self.looks(STEADY),
                             ["the page ended with exit status 1, and was restarted"])
        self.end(1)
        self.assertEqual(self.looks(STEADY - 1, 0, 4, 1), [
            "the page ended with exit status 1; the game goes on, and it is tried again in 5 s", "",
            "", ""])
        self.assertTrue(self.side.is_running())

    def test_one_that_reads_nothing_hurts_nobody(self) -> None:
        process = mock.Mock(poll=mock.Mock(return_value=None))
        process.stdin.write.side_effect = process.stdin.close.side_effect = BrokenPipeError
        self.children.start.side_effect = lambda *_, **__: process
        self.assertEqual(self.looks(0), [""])
        self.side.end()
        self.children.end.assert_called_once_with(process)
        self.side.end()
        self.side.close()

    def test_what_the_pages_are_told(self) -> None:
        def told(passed: float, **settings: Any) -> Dict[str, Any]:
            """What they are told some seconds after the lobby began."""
            pages = PageProcess(mock.Mock(), LobbySettings(GAME, 7000, 500, None, page=7080,
                                                           start=20.0, **settings),
                                WORDS, 7000, Path("my.journal"))
            self.now += passed
            given: Dict[str, Any] = json.loads(pages._told())
            return given

        given = told(1.0, late=3, names=True, form="json")
        self.assertEqual(given, {
            "port": 7000, "form": "json", "pace": 500, "page": 7080, "journal": "my.journal",
            "late": 3, "names": True, "advice": True, "seats": given["seats"], "begins": 19.0})
        self.assertEqual([word for word, _ in given["seats"]], WORDS)
        given = told(25.0, advice=False)
        self.assertEqual((given["begins"], given["advice"]), (0.0, False))


def text_of(handouts: Handouts, name: str, host: str = "10.0.0.7:7080") -> str:
    given = handouts.answer(f"/{name}", host)
    assert given is not None
    return given.body.decode()


class Filled(unittest.TestCase):
    def test_each_starter_has_the_address(self) -> None:
        for name, again in zip(STARTERS, ("True", "true", "true")):
            text = text_of(Handouts(7011, again=True), name)
            for line in ('HOST = "10.0.0.7"', "PORT = 7011", f"AGAIN = {again}"):
                self.assertEqual(len(re.findall(rf"\b{re.escape(line)}", text)), 1, (name, line))
            # The page replaces the first of these in the browser.
            self.assertEqual(re.findall(r'\bWORD = "[^"]*"', text), ['WORD = "seat0"'])
            self.assertIn(f"AGAIN = {'False' if again == 'True' else 'false'}",
                          text_of(Handouts(7011), name))

    def test_what_the_host_is_called(self) -> None:
        for host, address, name in (
                ("10.0.0.7:7080", "", "10.0.0.7"), ("class.example", "10.0.0.1", "class.example"),
                ("[fd00::7]:7080", "", "fd00::7"), ("localhost:7080", "10.0.0.1", "10.0.0.1"),
                ("127.0.0.1", "", "127.0.0.1"), ("", "10.0.0.1", "10.0.0.1"),
                ('a"b', "", "localhost"), ("<b>", "10.0.0.1", "10.0.0.1")):
            with self.subTest(host=host, address=address):
                handouts = Handouts(7000, address)
                self.assertIn(f'HOST = "{name}"\n'.replace("\n", "  #"),
                              text_of(handouts, "starter.py", host))
                self.assertIn(f"<code>{name}</code>, port <code>7000</code>",
                              text_of(handouts, "join", host))

    def test_nothing_else_is_there(self) -> None:
        for path in ("/", "/starter", "/../link.py", "/starter.py/", "join", ""):
            self.assertIsNone(Handouts(7000).answer(path, ""))

    def test_a_game_in_json_has_no_starters_nor_has_one_where_they_are_not_installed(self) -> None:
        with mock.patch.object(program, "examples", lambda: Path("/nowhere")):
            without = Handouts(7000)
        for handouts in (without, Handouts(7000, has_starters=False)):
            self.assertIn("<section hidden>", text_of(handouts, "join"))
            self.assertIsNone(handouts.answer("/starter.py", ""))
        page = text_of(Handouts(7000), "join")
        self.assertNotIn("<section hidden>", page)
        self.assertNotRegex(page, r'(src|href)="(https?:)?//|url\(|@import|--host--|--port--')

    def test_screens_say_where_to_join(self) -> None:
        with mock.patch("geesefuton.hosting.handouts.qr_picture", lambda text: f"code {text}"):
            self.assertEqual(Handouts(7000, "10.0.0.1", 7080).told, {
                "port": 7000, "address": "10.0.0.1", "join": "http://10.0.0.1:7080/join",
                "code": "code http://10.0.0.1:7080/join"})
            self.assertEqual(Handouts(7000, "", 7080).told["code"], "")
            self.assertEqual(Handouts(7000, "10.0.0.1").told["join"], "")


class Played(FolderCase):
    def test_a_file_runs_as_it_is(self) -> None:
        """With the word filled in as the page does it."""
        for name in STARTERS:
            server, file = SeatServer(), self.folder / name
            server.closed = [0]
            text = text_of(Handouts(server.port), name, "127.0.0.1")
            file.write_text(text.replace('WORD = "seat0"', 'WORD = "red7k"'))
            with self.subTest(name=name), contextlib.closing(server):
                if shutil.which(RUN[name][0]):
                    done = subprocess.run(
                        [*RUN[name], str(file), "--pause", "0"], stdin=subprocess.DEVNULL,
                        capture_output=True, text=True, timeout=120, check=False, cwd=self.folder,
                        env=variables())
                    self.assertEqual(server.heard[:1], ["hello red7k"], done.stderr)
                    self.assertEqual((done.returncode, done.stderr), (0, ""))
                    self.assertRegex(done.stdout, "^agent 3 holds .*, cash 0\n$")
