"""The end of a game: its log and journal, what fails, and the page's last scores."""

import errno
import io
import json
import os
import socket
from pathlib import Path
from typing import Any, List, Tuple
from unittest import mock

from geesefuton import program
from geesefuton.hosting import events, log_files
from geesefuton.hosting.control import Phase
from geesefuton.hosting.journal import Journal, read_journal
from geesefuton.hosting.lobby import Lobby, LobbyError
from geesefuton.hosting.server import TRIES
from geesefuton.hosting.server_links import summary
from geesefuton.hosting.settings import LobbySettings
from geesefuton.processes import free_port
from tests.package.helpers import fake_program
from tests.package.lobbies import GAME, WORDS, Agent, Case, Host

LOG = "taclog 1\nend\n"
HEAD = ",".join(["serve", *(f"link {seat} seated {seat}" for seat in range(8))])
WRONG = "does not match each link"


class TheEnd(Case):
    def test_a_full_disk_for_the_log(self) -> None:
        for status in (0, 6):  # also where ticks have lapsed
            self.set(FAKE_STATUS=str(status))
            journal = self.folder / f"{status}.journal"
            with open("/dev/full", "wb") as full:
                host = self.ended(log=full, journal=journal)
            self.assertEqual(host.status, 4)
            self.assertIn("No space left on device", host.of(events.Warned)[-1].text)
            log = journal.with_suffix(".log")
            self.assertEqual(log.read_text(), LOG)
            self.assertEqual(host.of(events.Finished)[0].log, str(log))

    def test_a_port_that_is_taken_is_tried_five_times(self) -> None:
        taken = self.folder / "taken"
        taken.touch()
        self.set(FAKE_STATUS="6", FAKE_TAKEN=str(taken))  # once
        self.assertEqual((self.ended(journal=None).status, taken.exists()), (6, False))
        script = f'[ "$1" = serve ] && exit 5\nexec {os.environ["TAC"]} "$@"\n'
        self.set(TAC=fake_program(self.folder, script))
        ports = self.patch("hosting.server.free_port", side_effect=free_port)
        host = self.ended()
        self.assertEqual((host.status, ports.call_count, TRIES), (5, 5, 5))
        self.assertEqual(host.of(events.Began), [])
        self.assertEqual(host.of(events.Finished)[0].status, 5)
        self.assertEqual(host.of(events.Warned), [])  # no game has begun that could be recovered

    def test_a_server_that_fails_or_is_killed(self) -> None:
        for given, status, told in (("7", 7, r"^the server failed.* /.*7.journal "),
                                    ("-9", 137, "to make a log from the journal")):
            self.set(FAKE_STATUS=given)
            journal = self.folder / f"{given}.journal"
            host = self.ended(journal=journal)
            self.assertEqual((host.status, host.of(events.Finished)[0].status), (status, status))
            self.assertRegex(host.of(events.Warned)[-1].text, told)
            self.assertEqual(read_journal(journal).status, status)

    def test_a_game_that_ends_well(self) -> None:
        file, other = self.folder / "a.log", self.folder / "b.journal"
        for log, journal, due in ((file, None, "a.log"), (io.BytesIO(), None, None),
                                  (io.BytesIO(), other, "b.log")):
            host = self.ended(log=log, journal=journal)
            self.assertEqual((host.status, host.of(events.Warned)), (0, []))
            finished, = host.of(events.Finished)
            self.assertEqual((finished.status, finished.log), (0, due and str(self.folder / due)))
            self.assertEqual(host.told[-1], finished)
            if finished.log:
                self.assertEqual(Path(finished.log).read_text(), LOG)
            if isinstance(log, io.BytesIO):
                self.assertEqual(log.getvalue(), LOG.encode())

    def test_a_server_that_fails_at_once(self) -> None:
        self.set(FAKE_EARLY="7")
        host = Host(self.folder, pace=5, start=0.2)
        agent, = self.agents(host, "seat0")
        self.assertEqual(agent.line(), "")
        self.assertEqual(len(host.end()), 8)
        self.assertEqual(host.status, 7)
        lines = [json.loads(line) for line in (self.folder / "my.journal").read_text().splitlines()]
        self.assertEqual(lines[-1], {"over": 7})  # who reads the journal ends there
        self.assertEqual(sorted(line["end"] for line in lines if "end" in line), list(range(8)))

    def test_the_page_shows_the_last_scores_and_nobody_listens_for_agents_then(self) -> None:
        never = float("inf")
        for stays, is_stopped, least, most in (
                (False, False, 10, 60), (True, False, never, never), (False, True, 0, 0)):
            port, tries = free_port(), list[int]()

            def wait(*_: object) -> None:
                with socket.socket() as link:
                    tries.append(link.connect_ex(("127.0.0.1", port)))

            page = mock.Mock(**{"look.return_value": "", "wait.side_effect": wait})
            with mock.patch("geesefuton.hosting.lobby.PageProcess", return_value=page) as made:
                host = Host(self.folder, pace=2, start=None if is_stopped else 0, linger=0,
                            port=port, stays=stays, page=free_port(),
                            journal=self.folder / f"{most}.journal")
                if is_stopped:
                    host.lobby.control.stop()
                host.end()
            self.assertEqual((host.status, made.call_count, len(host.of(events.Finished))),
                             (130 if is_stopped else 0, 1, 1))
            self.assertEqual([least <= call[0][0] <= most for call in page.wait.call_args_list],
                             [] if is_stopped else [True])
            self.assertEqual(tries, [] if is_stopped else [errno.ECONNREFUSED])
            self.assertEqual(page.close.call_count, int(not stays and not is_stopped))
            page.end.assert_called_once_with()

    def test_interrupt(self) -> None:
        for has_begun in (False, True):
            journal = self.folder / f"{has_begun}.journal"
            host = Host(self.folder, pace=1000, start=0 if has_begun else None, journal=journal)
            if has_begun:
                host.wait(events.Began)
            else:
                self.agents(host, "seat0")
                with socket.create_connection(("127.0.0.1", host.port)) as link:
                    link.sendall(b"hello seat1\n")
                    self.assertEqual(host.wait(events.Arrived, 2)[1].source, "127.0.0.1")
                self.assertIs(host.lobby.control.phase, Phase.GATHERING)
            host.lobby.control.stop()
            host.end()
            self.assertEqual((host.status, len(host.of(events.Began))), (130, has_begun))
            # There is nothing to make a log of if it had not begun.
            self.assertEqual("recover" in host.of(events.Warned)[-1].text, has_begun)
            self.assertIsNone(read_journal(journal).status)
            finished, = host.of(events.Finished)
            self.assertEqual((finished.status, finished.log), (130, None))
            host.lobby.control.stop()  # it has ended already

    def test_a_journal_is_a_new_file(self) -> None:
        (self.folder / "my.journal").touch()
        lobby = Lobby(LobbySettings(GAME, 0, 5, None, journal=self.folder / "my.journal"))
        with self.assertRaisesRegex(LobbyError, "already exists"):
            lobby.run(lambda event: None)

    def test_what_is_told_of_a_log_that_is_lost(self) -> None:
        self.patch("hosting.log_files.keep",
                   return_value=log_files.Kept("the disk is full", None))
        for is_whole, due in ((True, "to make it again: "),
                              (False, "to make one from what the journal has: ")):
            with mock.patch.object(Journal, "is_whole", is_whole):
                host = self.ended(journal=self.folder / f"{is_whole}.journal")
            self.assertIn(due, host.of(events.Warned)[-1].text)
            self.assertEqual(host.status, 4)


class Vouching(Case):
    """What the lobby says after a game of the log and its links to the server, with a stand-in for
    `tac vouch`."""

    def setUp(self) -> None:
        super().setUp()
        self.asked: List[Tuple[bytes, bytes]] = []
        self.said = [f"vouched {seat} whole {int(seat == 2)}" for seat in range(8)]
        self.set(FAKE_HEAD=HEAD)
        self.patch("program.vouch", self.vouch)

    def vouch(self, game: Path, log: bytes, asked: Path, said: Path, form: str,
              timeout: float) -> str:
        self.asked.append((asked.read_bytes(), said.read_bytes()))
        self.assertTrue(game.read_text().startswith("tac "))
        self.assertEqual((log[:15], form), (b"taclog 1\nserve\n", "words"))
        self.assertGreater(timeout, 0)
        return self.said[len(self.asked) - 1]

    def play(self, **more: Any) -> Tuple[Host, events.Finished, str]:
        """A game in which seat 2 asks a line, what is told at its end, and all warnings."""
        host = Host(self.folder, **{"pace": 1, "linger": 60.0, "start": None, "wait": 0.02,
                                    "vouches": True, **more})
        agent = Agent(host.port, WORDS[2])
        self.addCleanup(agent.close)
        agent.welcome()
        agent.ask("own 7")
        agent.quit()
        host.end()
        return (host, host.of(events.Finished)[0],
                "\n".join(event.text for event in host.of(events.Warned)))

    def test_all_links_are_vouched_for(self) -> None:
        host, finished, warnings = self.play()
        self.assertEqual((host.status, finished.status, finished.vouched, warnings),
                         (0, 0, tuple(self.said), ""))
        self.assertEqual([asked for asked, _ in self.asked], [
            b"hello %b\n" % word.encode() + b"own 7\nquit\n" * (word == WORDS[2])
            for word in WORDS])
        self.assertTrue(self.asked[2][1].endswith(b"\n@7 own 0 ()\nbye\n"))

    def test_one_is_not(self) -> None:
        self.said[5] = "unvouched entry 8 3"
        host, finished, warnings = self.play()
        self.assertEqual((host.status, finished.status, finished.vouched),
                         (9, 9, tuple(self.said)))
        self.assertIn(WRONG, warnings)
        self.assertTrue((self.folder / "my.log").read_text().startswith("taclog 1\nserve\n"))
        self.assertEqual(summary(WORDS, finished.vouched),
                         "vouched 7 of 8 (seat5: unvouched entry 8 3)")
        self.asked.clear()  # a log that the output does not take is compared too
        host, finished, warnings = self.play(log=self.folder / "no" / "where",
                                             journal=self.folder / "other.journal")
        self.assertEqual((host.status, finished.vouched), (4, tuple(self.said)))
        self.assertIn(WRONG, warnings)

    def test_where_nothing_can_be_said(self) -> None:
        """No journal, one that is not whole, a log of no served game, nobody asks for it, or a
        program that fails, which is told."""
        write = os.write

        def full(number: int, data: Any) -> int:
            if b'"over"' in bytes(data):
                raise OSError(errno.ENOSPC, "No space left on device")
            return write(number, data)

        for number, (more, patch) in enumerate((
                ({"journal": None}, mock.patch.object(Journal, "now", return_value=0)),
                ({}, mock.patch("geesefuton.hosting.journal.os.write", full)),
                ({}, mock.patch.dict(os.environ, {"FAKE_HEAD": ""})),
                ({"vouches": False}, mock.patch.dict(os.environ)),
                *(({}, mock.patch.object(program, "vouch", side_effect=fault)) for fault in (
                    program.ended("vouch", 7, "memory"), OSError(errno.ENOSPC, "the disk is full")))
        )):
            with patch:
                host, finished, warnings = self.play(
                    **{"journal": self.folder / str(number), **more})
            self.assertEqual((host.status, finished.vouched, self.asked), (0, (), []), number)
            self.assertNotIn(WRONG, warnings)
            self.assertEqual("cannot compare the log with the lobby's links: " in warnings,
                             number > 3)
