"""A game that is being hosted, as a `Serving` sees it.

A lobby gathers the agents, and then lets a `Serving` play the game: it answers the sessions that
it gives the relay, and lets time pass by `HostedGame.turn`. `ClockServer` is the one with a clock.
"""

from __future__ import annotations

import time
from collections import deque
from functools import partial
from pathlib import Path
from typing import Callable, Deque, List, Optional, Protocol

from geesefuton.hosting import events
from geesefuton.hosting.console import Console, NotDone, Orders
from geesefuton.hosting.control import Control, Phase
from geesefuton.hosting.events import Event
from geesefuton.hosting.page_process import SideProcess
from geesefuton.hosting.relay import Relay
from geesefuton.hosting.settings import LobbySettings
from geesefuton.processes import Children
from geesefuton.records.games import TICKS

LOOK = 0.2  # seconds between two looks at what has waited too long


class HostedGame:
    """A game that is being hosted."""

    def __init__(self, settings: LobbySettings, text: str, control: Control, children: Children,
                 folder: Path, relay: Relay, emit: Callable[[Event], None]) -> None:
        self.settings, self.text = settings, text  # and the canonical text of the game file
        self.control, self.relay = control, relay  # what is asked of it; the links of the agents
        self.children, self.folder = children, folder  # which end with the game
        self.emit = emit  # is told each event
        self.log: List[bytes] = []  # its pieces so far
        self.page: Optional[SideProcess] = None  # the process of the pages, if there are any
        self._lines: Deque[str] = deque()
        self._orders = Orders(settings.orders, self._lines)
        self._orders.look(relay.loop)
        self._console = Console(relay, control)
        self._looked = self._last = 0.0

    @property
    def is_stopped(self) -> bool:
        """Whether the host has stopped the game."""
        return self.control.is_stopped

    def warn(self, text: str) -> None:
        """Tells the host what it should know."""
        self.emit(events.Warned(time.time(), text))

    def turn(self, timeout: float) -> None:
        """Passes on what has come, for which it waits some seconds at most, and now and then looks
        at what has waited too long, at the host's commands and at the page."""
        self.relay.turn(min(timeout, LOOK))
        now, guard = time.monotonic(), self.relay.loop.guard
        if now - self._looked >= LOOK:
            self._looked = now
            guard(partial(self.relay.pass_time, now))
            guard(partial(self._orders.look, self.relay.loop))
            guard(self._look_at_pages)
        guard(self._obey)

    def rest(self, seconds: float) -> None:
        """Passes on what comes for some seconds, or until the game is stopped."""
        deadline = time.monotonic() + seconds
        while not self.is_stopped and time.monotonic() < deadline:
            self.turn(LOOK)

    def tick(self, number: int, lines: List[int]) -> None:
        """A tick has come, before which each agent has sent so many lines. After the last one
        agents that have not left have a while to do so."""
        if number == TICKS:
            self._last = time.monotonic()
            self.relay.release()
            self.control.phase = Phase.ENDING
        self.emit(events.Ticked(time.time(), number, tuple(lines)))

    def seconds_left(self) -> float:
        """How long agents that have not left after the last tick are still waited for."""
        return 0.0 if self.control.is_end_asked else max(
            0.0, self._last + self.settings.linger - time.monotonic())

    def _look_at_pages(self) -> None:
        told = self.page.look() if self.page else ""
        if told:
            self.warn(told)

    def _obey(self) -> None:
        while self._lines:
            try:
                for text in self._console.obey(self._lines.popleft()).splitlines():
                    self.emit(events.Answered(time.time(), text))
            except NotDone as fault:
                self.warn(str(fault))


class Serving(Protocol):
    """A way of serving a game."""

    def play(self, game: HostedGame) -> int:
        """Plays a game whose agents are gathered, and gives the exit status of what answered them.
        The log is added to `game.log`. If the game is stopped it leaves early, and gives `STOPPED`.
        """
