"""Links, and what waits for them and for other files, and serves those that are ready. What serves
one may raise anything: the others are served all the same."""

from __future__ import annotations

import contextlib
import selectors
import socket
import time
from functools import partial
from typing import Any, Callable, Dict, List, NamedTuple, Tuple

READ, WRITE = selectors.EVENT_READ, selectors.EVENT_WRITE
REST = 0.5  # seconds until a file is attended again whose handler failed
MOST_FAULTS = 50  # that are remembered, so as not to be told again


class Served(NamedTuple):
    """What is done once a file can be read or written, and what if that raises anything."""

    read: Callable[[], None]
    write: Callable[[], None]
    fail: Callable[[], None]


class Link:
    """A link."""

    served: Served  # what serves it

    def __init__(self, link: socket.socket) -> None:
        self.socket, self.wants = link, 0  # what the selector waits for
        self.held = bytearray()  # what is still to be sent to it
        self.has_ended = False  # whether it sends nothing more
        self.is_open = True  # whether it was not closed
        link.setblocking(False)

    def is_read(self) -> bool:
        """Whether what it sends is read."""
        return not self.has_ended

    def send(self) -> int:
        """Sends what is held, as far as it is taken: how many bytes that are.

        Raises:
            OSError: The link has failed.
        """
        count = 0
        try:
            while self.held:
                taken = self.socket.send(self.held)
                del self.held[:taken]
                count += taken
        except BlockingIOError:
            pass
        return count


class Loop:
    """Serves what is ready, in one thread, and warns of faults, each once."""

    def __init__(self, warn: Callable[[str], None]) -> None:
        self._warn = warn
        self._select = selectors.DefaultSelector()
        self._resting: Dict[Any, Tuple[float, Callable[[], None]]] = {}
        self._faults: List[str] = []

    def attend(self, file: Any, handler: Callable[[], None]) -> None:
        """Calls a handler whenever a file or socket can be read. If it raises anything the file
        rests for a while."""
        served = Served(handler, handler, partial(self._rest, file, handler))
        self._select.register(file, READ, served)

    def forget(self, file: Any) -> None:
        """Does so no longer."""
        self._resting.pop(file, None)
        with contextlib.suppress(KeyError, ValueError):
            self._select.unregister(file)

    def watch(self, link: Link) -> None:
        """Sets what is waited for at a link: nothing more before it is closed."""
        wants = 0
        if link.is_open:
            wants = (READ if link.is_read() else 0) | (WRITE if link.held else 0)
        known = link.wants
        if wants == known:
            return
        link.wants = wants
        if not wants:
            self._select.unregister(link.socket)
        elif not known:
            self._select.register(link.socket, wants, link.served)
        else:
            self._select.modify(link.socket, wants, link.served)

    def serve(self, timeout: float) -> None:
        """Waits until something is ready, for some seconds at most, and serves it."""
        for key, mask in self._select.select(timeout):
            served: Served = key.data
            try:
                if mask & WRITE:
                    served.write()
                if mask & READ:
                    served.read()
            except Exception as fault:
                self.caught(fault)
                served.fail()

    def guard(self, work: Callable[[], None], fail: Callable[[], None] = lambda: None) -> None:
        """Does something that may raise anything, and if it does, something else."""
        try:
            work()
        except Exception as fault:
            self.caught(fault)
            fail()

    def caught(self, fault: Exception) -> None:
        """Tells a fault that was caught, if it was not told before."""
        text = f"an error that ends no game: {fault!r}"
        if text not in self._faults:
            self._faults = [*self._faults[1 - MOST_FAULTS:], text]
            self._warn(text)

    def pass_time(self, now: float) -> None:
        """Attends files again that have rested."""
        for file, (until, handler) in list(self._resting.items()):
            if now > until:
                del self._resting[file]
                self.attend(file, handler)

    def close(self) -> None:
        """Closes the selector."""
        self._select.close()

    def _rest(self, file: Any, handler: Callable[[], None]) -> None:
        self.forget(file)
        self._resting[file] = time.monotonic() + REST, handler
