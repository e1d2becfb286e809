"""Lobbies in threads, and links to them, before a server that answers by no rules."""

import os
import socket
import struct
import threading
import time
from pathlib import Path
from typing import Any, Dict, List, Optional, Type
from unittest import mock

from geesefuton.hosting import events
from geesefuton.hosting.events import End, Event
from geesefuton.hosting.lobby import Lobby
from geesefuton.hosting.settings import LobbySettings
from tests.package.cases import FolderCase

HERE = Path(__file__).resolve().parent
TOP = HERE.parents[1]
GAME = TOP / "examples" / "first.game"
WORDS = [f"seat{number}" for number in range(8)]
MOST = 200.0  # seconds that anything may take, on a machine that is busy with other work


class Agent:
    """A link to the lobby."""

    def __init__(self, port: int, word: Optional[str] = None, first: Optional[bytes] = None):
        self.socket = socket.create_connection(("localhost", port))
        self.socket.settimeout(MOST)
        self.lines = self.socket.makefile("rb")
        self.send(first if first is not None else f"hello {word}\n".encode())

    def send(self, data: bytes) -> None:
        self.socket.sendall(data)

    def line(self) -> str:
        return self.lines.readline().decode("ascii").rstrip("\n")

    def welcome(self) -> List[str]:
        return [self.line() for _ in range(10)]

    def ask(self, line: str) -> str:
        self.send(line.encode() + b"\n")
        return self.line()

    def close(self) -> None:
        self.lines.close()
        self.socket.close()

    def reset(self) -> None:
        self.socket.setsockopt(socket.SOL_SOCKET, socket.SO_LINGER, struct.pack("ii", 1, 0))
        self.close()

    def quit(self) -> None:
        assert self.ask("quit") == "bye"
        self.close()


class Host:
    """A lobby in a thread."""

    def __init__(self, folder: Path, **more: Any) -> None:
        settings: Dict[str, Any] = {"port": 0, "pace": 20, "log": folder / "my.log",
                                    "journal": folder / "my.journal", "linger": 0.3,
                                    "start": 0.5, "patience": 30, "silence": 0.4, **more}
        self.lobby = Lobby(LobbySettings(game=GAME, **settings))
        self.port, self.told = self.lobby.port, list[Event]()
        self.status: Optional[int] = None
        self.thread = threading.Thread(target=self.run, daemon=True)
        self.thread.start()

    def run(self) -> None:
        self.status = self.lobby.run(self.told.append)

    def of(self, kind: Type[Event]) -> List[Any]:
        return [event for event in self.told if isinstance(event, kind)]

    def wait(self, kind: Type[Event], count: int = 1) -> List[Any]:
        deadline = time.monotonic() + MOST
        while len(self.of(kind)) < count:
            assert time.monotonic() < deadline, (kind, self.told)
            time.sleep(0.005)
        return self.of(kind)

    def finish(self) -> Dict[str, End]:
        """Lets the ticks that are left pass: why each seat's part was over."""
        self.lobby.settings.pace = 1
        return self.end()

    def end(self) -> Dict[str, End]:
        self.thread.join(MOST)
        assert not self.thread.is_alive(), self.told
        return {event.word: event.reason for event in self.of(events.Ended)}


class Case(FolderCase):
    def setUp(self) -> None:
        super().setUp()
        self.set(TAC=str(HERE / "fake_tac.py"))
        # Some agents keep their links; and what a test asks for is looked at soon.
        self.patch("hosting.lobby.ENDING", 0.1)
        self.patch("hosting.hosted_game.LOOK", 0.05)

    def set(self, **variables: str) -> None:
        self.enter(mock.patch.dict(os.environ, variables))

    def ended(self, **how: Any) -> Host:
        """A lobby whose game nobody plays, once it is over."""
        host = Host(self.folder, **{"pace": 2, "start": 0, "linger": 0, **how})
        host.end()
        return host

    def leave_all(self, host: Host, agents: List[Agent]) -> None:
        """All eight agents are welcomed and leave, and the game ends well."""
        for number, agent in enumerate(agents):
            self.assertEqual(agent.welcome()[0], f"welcome {number}")
            agent.quit()
        self.assertEqual(set(host.finish().values()), {End.LEFT})
        self.assertEqual(host.status, 0)

    def agents(self, host: Host, *words: str) -> List[Agent]:
        agents = [Agent(host.port, word) for word in words]
        self.addCleanup(lambda: [agent.close() for agent in agents])
        host.wait(events.Arrived, len(words))
        return agents

    def asked(self) -> List[str]:
        """What the server was asked, by its log."""
        return (self.folder / "my.log").read_text("latin-1").split("\n")[1:-2]
