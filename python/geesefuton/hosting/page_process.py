"""The process of a game's pages, as the lobby sees it. Whatever becomes of it, the game goes on."""

from __future__ import annotations

import contextlib
import json
import subprocess
import time
from pathlib import Path
from typing import Callable, List, Optional

from geesefuton.hosting.settings import LobbySettings
from geesefuton.network.addresses import new_token
from geesefuton.processes import Children, python_words, why

LOOK = 0.1  # seconds between two looks at whether the pages have ended
STEADY = 5.0  # seconds that a process has to have run to be started again at once
AGAIN, LONGEST = 5.0, 60.0  # seconds until one that fails is tried again, at first and at most


class SideProcess:
    """A process beside the game, which goes on without it. It is started again if it ends.

    Args:
        children: By which it is started.
        name: What it is called in messages.
        module: The module of the package whose `main` it runs.
        told: Gives what is written to its standard input, which then stays open.
    """

    def __init__(self, children: Children, name: str, module: str, told: Callable[[], bytes]
                 ) -> None:
        self._children, self._name, self._told = children, name, told
        self._words = python_words(module)
        self._process: "Optional[subprocess.Popen[bytes]]" = None
        self._began, self._due, self._pause = 0.0, float("-inf"), AGAIN

    def look(self) -> str:
        """Starts it, if it does not run and may be tried. Gives what the host is to be told; "" for
        nothing. It raises nothing."""
        now, fault = time.monotonic(), ""
        if self._process is not None:
            if self._process.poll() is None:
                return ""
            fault = f"{self._name} ended with exit status {self._process.returncode}"
            self.end()
            if now - self._began >= STEADY:
                self._due, self._pause = now, AGAIN
            else:
                self._put_off(now)
        if now >= self._due:
            try:
                self._start(now)
                return fault and f"{fault}, and was restarted"
            except OSError as why_not:  # such as too many open files
                fault = f"{self._name} cannot be started: {why(why_not)}"
                self._put_off(now)
        return fault and f"{fault}; the game goes on, and it is tried again in " \
                         f"{self._due - now:g} s"

    def _put_off(self, now: float) -> None:
        """It is tried again later, each time by more."""
        self._due, self._pause = now + self._pause, min(2 * self._pause, LONGEST)

    def _start(self, now: float) -> None:
        self._process = self._children.start(self._words, stdin=subprocess.PIPE,
                                             stdout=subprocess.DEVNULL)
        self._began = now
        assert self._process.stdin is not None
        with contextlib.suppress(BrokenPipeError):  # it has ended already
            self._process.stdin.write(self._told())
            self._process.stdin.flush()

    def is_running(self) -> bool:
        """Whether there is a process that has not ended."""
        return self._process is not None and self._process.poll() is None

    def close(self) -> None:
        """Ends its standard input, by which it knows that no more will come."""
        if self._process is not None and self._process.stdin is not None:
            with contextlib.suppress(BrokenPipeError):
                self._process.stdin.close()

    def end(self) -> None:
        """Ends it, if it has not ended."""
        self.close()
        if self._process is not None:
            self._children.end(self._process)
            self._process = None

    def wait(self, limit: float, is_stopped: Callable[[], bool]) -> None:
        """Waits until it has ended, for some seconds at most, unless the host stops it."""
        deadline = time.monotonic() + limit
        while self.is_running() and not is_stopped() and time.monotonic() < deadline:
            time.sleep(LOOK)


class PageProcess(SideProcess):
    """The pages of a game: the board, which shows a journal, and the seats that persons play.
    Started again, it serves each seat at the same address."""

    def __init__(self, children: Children, settings: LobbySettings, words: List[str], port: int,
                 journal: Optional[Path]) -> None:
        begins = None if settings.start is None else time.monotonic() + settings.start
        self.seats = [(word, new_token()) for word in words]  # and the tokens of their pages

        def told() -> bytes:
            """What is to be served, with the seconds until the game begins."""
            left = None if begins is None else max(0.0, begins - time.monotonic())
            return json.dumps({
                "port": port, "form": settings.form, "pace": settings.pace, "page": settings.page,
                "journal": journal and str(journal), "late": settings.late, "begins": left,
                "names": settings.names, "seats": self.seats, "advice": settings.advice,
                }).encode("ascii") + b"\n"

        super().__init__(children, "the page", "geesefuton.hosting.game_pages", told)
