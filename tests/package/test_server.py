"""The start of the server, with strangers at its port, and the end of a game that has a page."""

import errno
import os
import signal
import socket
import subprocess
import sys
import threading
from pathlib import Path
from typing import Any, List
from unittest import mock

from geesefuton import program
from geesefuton.hosting import events, server
from geesefuton.processes import Children, free_port
from tests.package import cases
from tests.package.helpers import needs_program
from tests.package.lobbies import GAME, MOST, WORDS, Case, Host


class Strangers(Case):
    """Somebody else is at the server's port before the lobby."""

    def setUp(self) -> None:
        super().setUp()
        self.patch("hosting.server.AGAIN", 0.01)

    def stranger(self, said: str) -> None:
        """A stranger comes before the lobby's links, and says something."""
        file = self.folder / "stranger"
        file.write_text(said)
        self.set(FAKE_STRANGER=str(file))

    def warnings_of_game(self) -> List[str]:
        """What the host is warned of in a game that all agents play and leave."""
        host = Host(self.folder, start=None, pace=1000)
        self.leave_all(host, self.agents(host, *WORDS))
        return [warned.text for warned in host.of(events.Warned)]

    def occupied(self) -> socket.socket:
        """Somebody else's server, at the port that the lobby finds first."""
        self.set(FAKE_LATE="0.3")  # so that the lobby finds the other one listening
        other: socket.socket = self.enter(socket.create_server(("127.0.0.1", 0)))
        ports = iter([other.getsockname()[1]])
        self.patch("hosting.server.free_port",
                   side_effect=lambda: next(ports, None) or free_port())
        return other

    def test_the_seats_of_the_server_have_words_that_nobody_else_knows(self) -> None:
        self.stranger("hello seat3\n")
        words, served = list[str](), program.served_words

        def watched(game: Path, *more: Any) -> Any:
            words.extend(game.read_text().split("\n")[1].split())
            return served(game, *more)

        self.patch("program.served_words", watched)
        self.assertEqual(self.warnings_of_game(), [])
        self.assertEqual((len(set(words)), set(words) & set(WORDS)), (9, set()))

    def test_somebody_elses_server_at_the_port_costs_that_port_alone_and_is_not_believed(
            self) -> None:
        self.occupied()
        self.warnings_of_game()
        (self.folder / "my.journal").unlink()
        other = self.occupied()

        def welcomes() -> None:
            for seat in range(8):
                with other.accept()[0] as link:
                    link.sendall(b"welcome %d\nendow" % seat)

        threading.Thread(target=welcomes, daemon=True).start()
        self.warnings_of_game()

    def test_a_server_that_cannot_be_started_is_tried_again(self) -> None:
        faults = iter([OSError(24, "Too many open files")] * 2)

        def port() -> int:
            for fault in faults:
                raise fault
            return free_port()

        self.patch("hosting.server.free_port", port)
        self.assertEqual(self.warnings_of_game(),
                         ["cannot start the server: Too many open files; trying again and again"])

    def test_a_server_that_does_not_end_after_its_log_is_killed(self) -> None:
        self.set(FAKE_STAYS="1")
        self.patch("hosting.server.ENDING", 0.1)
        host = self.ended()
        self.assertEqual(host.status, 128 + signal.SIGKILL)
        self.assertIn("did not end after its log", host.of(events.Warned)[0].text)
        self.assertEqual(self.asked(), [])

    def test_a_server_that_listens_late_is_waited_for_and_a_stranger_is_no_fault(self) -> None:
        self.set(FAKE_LATE="0.8")
        self.stranger("GET / HTTP/1.1\n")
        self.assertEqual(self.warnings_of_game(), [])

    def test_a_server_that_a_silent_stranger_holds_up_is_started_again(self) -> None:
        waits = iter([0.1])

        def port() -> int:
            server.WELCOMING = next(waits, MOST)
            return free_port()

        self.patch("hosting.server.WELCOMING")
        self.patch("hosting.server.free_port", port)
        self.stranger("")
        self.assertEqual(self.warnings_of_game(), [
            "the server did not start: it welcomed nobody in 0.1 seconds; trying again"])

    def test_a_server_that_never_listens_is_given_up(self) -> None:
        self.set(FAKE_LATE=str(MOST))
        self.patch("hosting.server.LISTENING", 0.2)
        host = self.ended()
        self.assertEqual(host.status, server.TAKEN)
        self.assertIn("did not listen within", host.of(events.Warned)[-1].text)


@needs_program
class Addresses(cases.Case):
    """The address in the variable TAC_BIND, with the program itself."""

    def test_the_server_listens_there_alone(self) -> None:
        def fault(host: str) -> int:
            with socket.socket() as link:
                return link.connect_ex((host, port))

        port = free_port()
        children = self.enter(Children())
        served = children.start(
            program.served_words(GAME, port, 1), stdin=subprocess.DEVNULL,
            stdout=subprocess.DEVNULL, env={**os.environ, "TAC_BIND": server.HOST})
        self.until(lambda: not fault(server.HOST))
        self.assertEqual(fault("127.0.0.2"), errno.ECONNREFUSED)
        children.end(served)


class Ticks(Case):
    """What the host is told at each tick."""

    def test_lines_that_wait_for_the_reply_before_are_counted(self) -> None:
        host = Host(self.folder, start=None, pace=300)
        agent = self.agents(host, *WORDS)[0]
        agent.welcome()
        agent.send(b"bid 8 ((1 1))\n" * 5)  # each is answered after a while
        self.assertEqual([agent.line() for _ in range(5)], ["@8 taken 0 0"] * 5)
        host.finish()
        counts = [event.lines[0] for event in host.of(events.Ticked)]
        self.assertEqual(set(counts) - {0}, {5}, counts)


class SideProcesses(Case):
    """The end of a game whose page is served by something else."""

    def setUp(self) -> None:
        super().setUp()
        self.patch("hosting.page_process.python_words",
                   return_value=[sys.executable, "-c", f"import time; time.sleep({MOST})"])

    def host(self, **how: Any) -> Host:
        return Host(self.folder, pace=2, start=0, linger=0, page=free_port(), **how)

    def test_the_wait_for_the_page_can_be_interrupted(self) -> None:
        host = self.host()
        host.wait(events.Finished)
        self.assertTrue(host.thread.is_alive())
        host.lobby.control.stop()
        host.end()
        self.assertEqual(host.status, 0)

    def test_without_a_terminal_the_scores_are_not_shown_for_long(self) -> None:
        self.patch("hosting.lobby.SHOWING", 0.1)
        host = self.host(stays=True)
        host.lobby.settings.stays = False
        host.end()
        self.assertEqual(host.status, 0)

    def test_one_that_cannot_be_looked_at_ends_no_game(self) -> None:
        host = Host(self.folder, start=None, pace=5, linger=0)
        self.agents(host, "seat0")
        game = host.lobby._game
        assert game is not None
        game.page = mock.Mock(**{"look.side_effect": OSError(24, "Too many open files")})
        host.wait(events.Warned)
        game.control.go_on()
        host.end()
        self.assertEqual(host.status, 0)
        warned, = host.of(events.Warned)
        self.assertIn("Too many open files", warned.text)
