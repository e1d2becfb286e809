"""The lobby's command: what it makes of its words, of signals, and of where it stands, by itself
and as a host uses it."""

import contextlib
import os
import re
import signal
import socket
import subprocess
import sys
import unittest
from argparse import Namespace
from dataclasses import replace
from pathlib import Path
from typing import Any, Iterator, List, Optional, Tuple
from unittest import mock

from geesefuton.hosting import events, lobby, lobby_command
from geesefuton.hosting.control import STOPPED, Phase
from geesefuton.hosting.journal import read_journal
from geesefuton.hosting.lobby import Lobby, LobbyError
from geesefuton.hosting.settings import LobbySettings
from geesefuton.processes import command, free_port
from geesefuton.records.logs import read_log
from tests.package import lobbies
from tests.package.cases import FolderCase
from tests.package.helpers import COMMAND, DATA, fake_program
from tests.package.lobbies import GAME, MOST

DEFAULTS = LobbySettings(
    game=Path("my.game"), port=7000, pace=500, log=sys.stdout.buffer, form="words", start=None,
    linger=30.0, patience=30.0, silence=10.0, journal=None, page=None, late=6, names=False)
LOG = b"taclog 1\nend\n"


class Case(FolderCase):
    def patch(self, name: str, *what: Any, **how: Any) -> Any:
        return super().patch(f"hosting.lobby_command.{name}", *what, **how)


class Words(unittest.TestCase):
    def given(self, *words: str) -> Namespace:
        with mock.patch("sys.argv", ["lobby", *words]):
            return lobby_command._arguments()

    def test_the_limits_of_what_may_be_said(self) -> None:
        for words in ("1 1 --late 0 --page 1 --start 0", "65535 60000 --late 54 --page 65535 json"):
            self.assertEqual(self.given("g", *words.split()).port, int(words.split()[0]))
        for words in ("0 1", "65536 1", "7 0", "7 60001", "7", "7 1 xml", "7 1 --late 55",
                      "7 1 --page 65536", "7 1 --page 0", "7 1 --start -1", "7 1 --start nan",
                      "7 1 --after x", "7 1 --silence nan", "7 1 --patience -2", "7 1 --name"):
            with mock.patch("geesefuton.arguments.tell") as told, \
                    self.assertRaises(SystemExit) as caught:
                self.given("g", *words.split())
            self.assertEqual((caught.exception.code, told.call_count), (2, 1), words)


class Main(Case):
    """The command, with a lobby that plays nothing."""

    def setUp(self) -> None:
        super().setUp()
        self.made = self.patch("Lobby")
        self.made.return_value = mock.Mock(port=7000, words=["red", "blue"])
        self.teller = self.patch("Teller").return_value
        self.signals = self.patch("_Signals").return_value
        self.patch("_open_standard_files", return_value=True)
        self.patch("_default_journal", return_value=Path("default.journal"))

    def run_it(self, status: int, *words: str, number: int = 0) -> int:
        self.made.return_value.run.return_value = status
        self.signals.number = number
        with mock.patch("sys.argv", ["lobby", "my.game", "7000", "500", *words]):
            return lobby_command._main()

    def settings(self) -> LobbySettings:
        settings: LobbySettings = self.made.call_args[0][0]
        return settings

    def test_the_lobby_is_told_all(self) -> None:
        self.run_it(0, "json", "--start", "1", "--after", "2", "--patience", "3", "--silence",
                    "4", "--journal", "j", "--page", "8", "--late", "9", "--names",
                    "--no-advice")
        self.assertEqual(self.settings(), LobbySettings(
            game=Path("my.game"), port=7000, pace=500, log=sys.stdout.buffer, form="json",
            start=1.0, linger=2.0, patience=3.0, silence=4.0, journal=Path("j"), page=8, late=9,
            names=True, advice=False, orders=sys.stdin, vouches=True))
        self.made.return_value.words = list("abcdefgh")
        said, page = (call[0][0] for call in self.teller.say.call_args_list)
        self.assertIn("port 7000", said)
        self.assertIn("red blue", said)
        self.assertIn("the journal is j", said)
        self.assertRegex(page, "^the page is http://localhost:8; players join at http://.*:8/join$")
        tell, = self.made.return_value.run.call_args[0]
        self.teller.say.reset_mock()
        tell(events.Finished(0.0, 0, str(DATA / "lobby.log")))
        ranks = [call[0][0] for call in self.teller.say.call_args_list]
        scores = sorted((score.score for score in read_log(
            (DATA / "lobby.log").read_text()).scores), reverse=True)
        self.assertEqual([line.split()[-1] for line in ranks[:8]], [f"{each:,}" for each in scores])
        self.assertRegex(ranks[8], "^more: .*report my.game .*lobby.log > my.html$")
        self.teller.tell.assert_called_once()
        self.teller.close.assert_called_once_with()

    def test_what_holds_if_nothing_is_said_and_without_an_output_and_a_journal(self) -> None:
        self.run_it(0)
        self.assertEqual(self.settings(), replace(
            DEFAULTS, journal=Path("default.journal"), orders=sys.stdin, vouches=True))
        self.assertEqual(LobbySettings(Path("my.game"), 7000, 500, sys.stdout.buffer), DEFAULTS)
        self.patch("_open_standard_files", return_value=False)
        self.patch("_default_journal", return_value=None)
        self.run_it(0)
        self.assertIsNone(self.settings().log)
        self.assertIn("there is no journal", self.teller.say.call_args[0][0])

    def test_exit_statuses(self) -> None:
        for status, number, due in ((0, 0, 0), (6, 0, 6), (4, 2, 4), (137, 0, 137),
                                    (STOPPED, signal.SIGINT, 130), (STOPPED, signal.SIGTERM, 143),
                                    (STOPPED, signal.SIGHUP, 129), (STOPPED, 0, 130)):
            self.assertEqual(self.run_it(status, number=number), due)

    def test_errors(self) -> None:
        self.made.return_value.run.side_effect = LobbyError("the journal is there already")
        told = FolderCase.patch(self, "processes.tell")
        FolderCase.patch(self, "processes.stop_on_signals")
        self.assertEqual(command("lobby", lambda: self.run_it(0)), 1)
        told.assert_called_once_with("lobby: the journal is there already")
        self.teller.close.assert_called_once_with()


NOTHING = (False, False, "")


class Signals(Case):
    def setUp(self) -> None:
        super().setUp()
        self.handlers = {}
        self.patch("signal.signal", self.handlers.__setitem__)
        self.clock = self.patch("time.monotonic", return_value=0.5)
        self.lobby, self.teller = mock.Mock(), mock.Mock()

    def begin(self, phase: Phase) -> Any:
        """The handlers, in a phase of the game, in which nothing was told yet."""
        self.lobby.control.phase = phase
        self.teller.say.reset_mock()
        return lobby_command._Signals(self.lobby, self.teller)

    def take(self, number: int, at: float = 1.0) -> Tuple[bool, bool, str]:
        """Whether the game is stopped by a signal, or what is left of it ended, and what is told
        last."""
        self.clock.return_value = at
        self.lobby.control.reset_mock()
        self.handlers[number](number, None)
        said = self.teller.say.call_args
        return (self.lobby.control.stop.called, self.lobby.control.end.called,
                said[0][0] if said else "")

    def test_in_the_game(self) -> None:
        taken = self.begin(Phase.PLAYING)
        self.assertEqual(set(self.handlers),
                         {signal.SIGINT, signal.SIGTERM, signal.SIGHUP, signal.SIGTSTP})
        self.assertEqual(self.take(signal.SIGHUP, 0.5), NOTHING)
        self.assertIs(self.lobby.settings.stays, False)
        for at in (1.0, 6.5):  # not within five seconds
            stopped, _, said = self.take(signal.SIGINT, at)
            self.assertEqual((stopped, taken.number, self.teller.say.call_count),
                             (False, 0, 1 + (at > 1)))
            self.assertIn("the game goes on", said)
        for number, at in ((signal.SIGINT, 11.0), (signal.SIGTERM, 20.0)):
            self.assertEqual(self.take(number, at)[:2], (True, False))
            self.assertEqual(taken.number, number)

    def test_before_the_game_it_is_ended_and_the_page_once_the_log_is_written(self) -> None:
        for phase in (Phase.GATHERING, Phase.STARTING, Phase.SHOWING):
            for number in (signal.SIGINT, signal.SIGHUP, signal.SIGTERM):
                taken = self.begin(phase)
                self.assertEqual((self.take(number), taken.number), ((True, False, ""), number))

    def test_after_the_last_tick_the_wait_is_told_or_ended_with_the_log(self) -> None:
        self.lobby.waits_for.return_value = (29.7, ["seat0", "seat4"])
        self.begin(Phase.ENDING)
        self.assertEqual(self.take(signal.SIGHUP), NOTHING)
        told = self.take(signal.SIGINT)
        self.assertEqual(told[:2], (False, False))
        self.assertIn("waiting 30 s for seat0 seat4; press Enter", told[2])
        self.assertEqual(self.take(signal.SIGINT)[:2], (False, True))
        self.assertEqual(self.take(signal.SIGINT)[:2], (True, False))  # the server does not end
        self.begin(Phase.ENDING)
        self.assertEqual(self.take(signal.SIGTERM), (False, True, ""))
        self.assertEqual(self.take(signal.SIGTERM), (True, False, ""))

    def test_what_is_ignored_stays_so(self) -> None:
        self.patch("signal.getsignal", lambda number: (
            signal.SIG_IGN if number == signal.SIGHUP else signal.SIG_DFL))
        self.begin(Phase.PLAYING)
        self.assertEqual(set(self.handlers), {signal.SIGINT, signal.SIGTERM, signal.SIGTSTP})

    def test_ctrl_z_stops_the_lobby_but_not_in_a_game(self) -> None:
        kill = self.patch("os.kill")
        for phase in Phase:
            kill.reset_mock()
            self.begin(phase)
            told = self.take(signal.SIGTSTP)
            self.assertEqual(told[:2], (False, False))
            if phase in (Phase.GATHERING, Phase.SHOWING):
                kill.assert_called_once_with(os.getpid(), signal.SIGSTOP)
            else:
                self.assertIn("the game goes on", told[2])
                kill.assert_not_called()


class Journals(Case):
    def test_the_default_is_beside_the_log_with_the_game_and_the_date(self) -> None:
        teller = mock.Mock()
        self.patch("_output_folder", return_value=self.folder)
        file = lobby_command._default_journal(Path("some/my.game"), teller)
        assert file is not None
        self.assertEqual((file.parent, file.exists()), (self.folder, False))
        self.assertRegex(file.name, r"^my-20\d{6}-\d{6}\.journal$")
        with mock.patch("time.strftime", return_value="DATE"):
            (self.folder / "my-DATE.journal").touch()
            self.assertEqual(lobby_command._default_journal(Path("my.game"), teller),
                             self.folder / "my-DATE-2.journal")
        teller.say.assert_not_called()

    def test_if_none_can_be_made_there_it_is_in_this_folder(self) -> None:
        teller = mock.Mock()
        self.patch("_output_folder", return_value=self.folder / "none")
        before = os.getcwd()
        os.chdir(self.folder)
        self.addCleanup(os.chdir, before)
        file = lobby_command._default_journal(Path("my.game"), teller)
        assert file is not None
        self.assertEqual(file.resolve().parent, self.folder)
        self.assertIn("cannot create the journal", teller.say.call_args[0][0])
        with mock.patch("os.open", side_effect=OSError(30, "Read-only file system")):
            self.assertIsNone(lobby_command._default_journal(Path("my.game"), teller))

    @contextlib.contextmanager
    def output(self, number: int) -> Iterator[None]:
        """Standard output is another file for a while."""
        kept = os.dup(1)
        try:
            os.dup2(number, 1)
            yield
        finally:
            os.dup2(kept, 1)
            os.close(kept)

    @unittest.skipUnless(Path("/proc/self").exists(), "the system does not tell")
    def test_the_folder_of_the_output(self) -> None:
        with open(self.folder / "my.log", "wb") as file, self.output(file.fileno()):
            self.assertEqual(lobby_command._output_folder(), self.folder)
        with open(os.devnull, "wb") as file, self.output(file.fileno()):
            self.assertEqual(lobby_command._output_folder(), Path())

    def test_how_a_log_is_made_of_one(self) -> None:
        FolderCase.patch(self, "program.typed", lambda words: f"./geesefuton {words}")
        self.assertEqual(lobby.recovery_line(Path("a/my-1.journal")),
                         "./geesefuton recover a/my-1.journal > my-1.recovered.log")


class Pages(lobbies.Case):
    """The page that the lobby starts."""

    def lobby(self, page: Optional[int], **more: Any) -> Lobby:
        made = Lobby(LobbySettings(GAME, 0, 5, None, page=page, **more))
        self.addCleanup(made._listeners[0].close)
        return made

    def test_links_come_in_at_every_address(self) -> None:
        made = self.lobby(None)
        self.assertIn(made._listeners[0].getsockname()[0], ("::", "0.0.0.0"))
        self.assertEqual(made.words, lobbies.WORDS)
        for host in ("127.0.0.1", *["::1"] * socket.has_dualstack_ipv6()):
            socket.create_connection((host, made.port)).close()

    def test_what_is_told_of_a_game_that_is_stopped(self) -> None:
        for started, given, due in ((1.0, "my.journal", True), (1.0, None, False),
                                    (None, "my.journal", False)):
            made, told = self.lobby(None, journal=given and Path(given)), mock.Mock()
            told.relay.started = started
            self.assertEqual(made._stop(told), 130)
            self.assertIn("stopped, without a log", told.warn.call_args[0][0])
            self.assertEqual("my.journal > " in told.warn.call_args[0][0], due)
            finished = told.emit.call_args[0][0]
            self.assertEqual((finished.status, finished.log), (130, None))

    def test_ports_and_a_journal_that_cannot_be_had(self) -> None:
        port = free_port()
        with socket.create_server(("", 0)) as other:
            taken = other.getsockname()[1]
            for own, page, told in (
                    (port, port, f"port {port} is for the game: choose another"),
                    (0, taken, f"port {taken}.*in use"), (taken, None, f"port {taken}")):
                with self.assertRaisesRegex(LobbyError, told):
                    Lobby(LobbySettings(GAME, own, 5, None, page=page))
        made = self.lobby(None, journal=self.folder / "none" / "my.journal")
        with self.assertRaisesRegex(LobbyError, "cannot create the journal .*No such file"):
            made._open_journal(self.folder, self.fail)

    def test_without_a_journal_of_the_hosts_it_has_one_that_goes_away(self) -> None:
        for page, given, due in ((None, None, None), (None, "my.journal", "my.journal"),
                                 (8000, None, "journal"), (8000, "other", "other")):
            made = self.lobby(None, journal=given and self.folder / given)
            made.settings.page = page
            journal = made._open_journal(self.folder, self.fail)
            self.assertEqual(journal.file and journal.file.name, due)
            if journal.file:
                journal.close()
                first = re.match(r'\{"journal":1,"at":\d+,"pace":5,"form":"words","game":"',
                                 journal.file.read_text())
                self.assertTrue(first)
                self.assertEqual(journal.file.stat().st_mode & 0o777, 0o600)  # it has the words


class Command(lobbies.Case):
    def words(self, *more: str, pace: int = 15) -> List[str]:
        return [*COMMAND, "lobby", str(GAME), str(free_port()), str(pace), "--start", "0.2",
                "--after", "0", *more]

    def start(self, until: str, *more: str, pace: int = 15, **variables: str) -> str:
        """Starts the command in a process, and waits until the host is told a text: that line."""
        self.process = subprocess.Popen(
            self.words(*more, pace=pace), stdin=subprocess.PIPE, stdout=subprocess.PIPE,
            stderr=subprocess.PIPE, cwd=self.folder, env={**os.environ, **variables})
        self.addCleanup(self.process.kill)  # if the test fails
        return self.wait_for(until)

    def wait_for(self, text: str) -> str:
        """The next line that the host is told with a text in it."""
        assert self.process.stderr is not None
        return next(line for line in map(bytes.decode, self.process.stderr) if text in line)

    def check_end(self, status: int, printed: bytes = b"", told: str = ".*") -> None:
        output, error = self.process.communicate(timeout=MOST)
        self.assertEqual((self.process.returncode, output), (status, printed), error)
        self.assertRegex(error.decode(), rf"(?s)\A{told}\Z")

    def test_ctrl_c_and_a_closed_terminal_in_the_game(self) -> None:
        self.start("begins")
        for number in (signal.SIGINT, signal.SIGHUP):
            self.process.send_signal(number)
        self.check_end(0, LOG, ".*the game goes on.*")
        self.assertEqual(len(list(self.folder.glob("first-*.journal"))), 1)

    def test_two_ctrl_c_leave_a_journal(self) -> None:
        self.start("begins", "--journal", "my.journal", pace=1000)
        self.process.send_signal(signal.SIGINT)
        self.wait_for("the game goes on")
        self.process.send_signal(signal.SIGINT)
        self.check_end(130, told=".*recover my.journal > .*")
        self.assertTrue(read_journal(self.folder / "my.journal").has_begun)

    def test_while_the_server_starts_a_signal_ends_it(self) -> None:
        starting = self.folder / "starting"
        tac = fake_program(self.folder, f"[ $1 = serve ] && touch '{starting}' && exec sleep {MOST}"
                                        f"\nexec {os.environ['TAC']} \"$@\"\n")
        for number in (signal.SIGINT, signal.SIGTERM):
            self.start("waiting at port", TAC=tac)
            self.until(starting.exists)
            starting.unlink()
            self.process.send_signal(number)
            self.check_end(128 + number, told="((?!Traceback).)*")

    def test_what_is_waited_for_after_the_last_tick_ends_by_enter_or_a_second_ctrl_c(self) -> None:
        for key in (b"\n", b""):
            said = self.start("waiting at port", "--after", str(MOST), pace=20)
            port = int(said.split(" at port ")[1].split(" ")[0])
            with socket.create_connection(("localhost", port)) as link:
                link.sendall(b"hello seat0\n")
                self.wait_for("seat0 is here")
                self.wait_for("tick 54")
                self.process.send_signal(signal.SIGINT)
                self.assertRegex(self.wait_for("ctrl-C"), r"waiting \d+ s for seat0; press Enter "
                                                          "or ctrl-C to end now")
                assert self.process.stdin is not None
                self.process.stdin.write(key)
                self.process.stdin.flush()
                if not key:
                    self.process.send_signal(signal.SIGINT)
                self.check_end(0, LOG)

    def test_ctrl_c_while_it_is_loaded_or_reads_the_game_file_gives_no_traceback(self) -> None:
        held = self.folder / "held"
        held.mkdir()
        (held / "argparse.py").write_text("import os, time\nos.write(2, b'loading\\n')\n"
                                          f"time.sleep({MOST})\n")
        tac = fake_program(self.folder, f"echo reading >&2; exec sleep {MOST}")
        for text, name, value, due in (("loading", "PYTHONPATH", str(held), -signal.SIGINT),
                                       ("reading", "TAC", tac, 130)):
            with mock.patch.dict(os.environ, {name: value}):
                self.start(text)
            self.process.send_signal(signal.SIGINT)
            self.check_end(due, told="")

    def test_closed_outputs(self) -> None:
        for number, close in ((0, "2>&-"), (4, ">&-"), (4, "> /dev/full"), (0, "<&-"),
                              (4, "<&- >&- 2>&-")):
            with self.subTest(close=close):
                line = " ".join(f"'{word}'" for word in self.words(pace=1))
                done = subprocess.run(["sh", "-c", f"exec {line} {close}"], cwd=self.folder,
                                      stdout=subprocess.PIPE, stderr=subprocess.DEVNULL,
                                      timeout=MOST, check=False)
                self.assertEqual(done.returncode, number)
                logs = list(self.folder.glob("first-*.log"))
                self.assertEqual([log.read_bytes() for log in logs], [LOG] * len(logs))
                self.assertTrue(logs)
