"""A server of pages: a function answers the requests of browsers that a gate lets in.

    await PageServer(answer, page_gate(), faults).serve(listener)     until it is cancelled

The head of a request has a time, all of it, and so have its body and each piece of its answer: a
browser that trickles, or takes nothing, is let go. A link that has shown a token, by
`request.visit.know`, is kept for its next request. Any other one ends with its answer, and until
then makes room for others. So nobody without a token can hold a place.
"""

from __future__ import annotations

import asyncio
import contextlib
import signal
import socket
import time
from pathlib import Path
from typing import (Any, AsyncGenerator, Awaitable, Callable, Coroutine, Dict, Iterator, List,
                    NamedTuple, Optional, Set)

from geesefuton.network.gate import AT_ONCE, Gate, Visit, most_links
from geesefuton.processes import why

MOST_LINKS, MOST_EACH = 200, 50  # links at a time, and strangers' of one network
KEPT = 4  # one place of so many is kept for those who have a token, and for this machine
OTHERS = 48  # open files that the rest of the process may need
MOST_HEAD = 1 << 16  # bytes of a request's head, which has the cookies of the host's other servers
MOST_LINES = 100  # of a head
MOST_BODY = 4096  # bytes of its body
FIRST = 3.0  # seconds for the head of a link's first request
PATIENCE = 15.0  # seconds for a body, for a piece of an answer, and until the next head is whole
AGAIN = 0.5  # seconds until links are taken again, after the system gave none
SELDOM = 60.0  # seconds until a fault that lasts is told again
# What all pages begin with, before their own title, style, body and script.
START = """<!doctype html>
<html lang="en">
<meta charset="utf-8">
<meta name="viewport" content="width=device-width, initial-scale=1">
<link rel="icon" href="data:,">
<style>
{}</style>
<script>
{}</script>
"""
HEAD = (
    "HTTP/1.1 {}\r\nContent-Type: {}\r\nCache-Control: no-store\r\n"
    "X-Content-Type-Options: nosniff\r\nReferrer-Policy: no-referrer\r\n"
    "Content-Security-Policy: default-src 'none'; style-src 'unsafe-inline'; "
    "script-src 'unsafe-inline'; connect-src 'self'; img-src data:; base-uri 'none'; "
    "form-action 'none'; frame-ancestors 'none'\r\n")


class Request(NamedTuple):
    """What a browser asks: the method, the path without what follows `?`, the fields of the head by
    their names in small letters, and the body, on a link that came as a visit."""

    method: str
    path: str
    fields: Dict[str, str]
    body: bytes
    visit: Visit


class Response(NamedTuple):
    """An answer: its status, its media type, its body, and one more line of its head. One that goes
    on as long as its `pieces` come has no body."""

    status: str
    kind: str
    body: bytes = b""
    line: str = ""
    pieces: Optional[AsyncGenerator[bytes, None]] = None


Answering = Callable[[Request], Awaitable[Response]]


class Faults:
    """Reports faults that may recur: each reason once in a while.

    Args:
        tell: Is given a line.
    """

    def __init__(self, tell: Callable[[str], None]) -> None:
        self._tell = tell
        self._told: Dict[str, float] = {}  # when each reason was told

    def tell(self, what: str, reason: str) -> None:
        """Tells that something failed for a reason, unless the reason was told a while ago."""
        now = time.monotonic()
        if now - self._told.get(reason, float("-inf")) >= SELDOM:
            self._told[reason] = now
            self._tell(f"{what}: {reason}")


class Bell:
    """Wakes what waits in an event loop. Any thread may ring it."""

    def __init__(self) -> None:
        self._loop: Optional[asyncio.AbstractEventLoop] = None
        self._rung: "Optional[asyncio.Future[None]]" = None

    def ring(self) -> None:
        """Something has changed."""
        if self._loop is not None:
            with contextlib.suppress(RuntimeError):  # the loop has ended
                self._loop.call_soon_threadsafe(self._wake)

    def _wake(self) -> None:
        if self._rung is not None:
            self._rung.set_result(None)
            self._rung = None

    async def wait_until(self, holds: Callable[[], bool], seconds: float) -> None:
        """Waits until something holds, for so many seconds at most; the bell rings if it may."""
        self._loop = asyncio.get_running_loop()
        end = self._loop.time() + seconds
        while True:
            if self._rung is None:
                self._rung = self._loop.create_future()
            left = end - self._loop.time()
            if holds() or left <= 0:
                return
            await asyncio.wait([self._rung], timeout=left)


def page_gate() -> Gate:
    """Who may come to the pages of a process."""
    most = most_links(MOST_LINKS, OTHERS)
    return Gate(time.monotonic, most, min(MOST_EACH, most), most // KEPT, FIRST)


def read_page(file: Path) -> bytes:
    """A page, with what all pages share."""
    shared = (Path(__file__).with_name(name).read_text() for name in ("style.css", "page.js"))
    return (START.format(*shared) + file.read_text(encoding="utf-8")).encode()


class PageServer:
    """Answers the requests of browsers.

    Args:
        answer: Answers one. What it raises ends the link, and is told.
        gate: Who may come. Its clock is `time.monotonic`.
        faults: Is told what fails.
    """

    def __init__(self, answer: Answering, gate: Gate, faults: Faults) -> None:
        self._answer, self._gate, self._faults = answer, gate, faults
        self._links: "Set[asyncio.Future[None]]" = set()
        self._leaving: "Set[asyncio.Future[None]]" = set()  # those that make room

    async def serve(self, listener: socket.socket) -> None:
        """Takes links and serves them, until it is cancelled."""
        listener.setblocking(False)
        loop, have_come = asyncio.get_running_loop(), asyncio.Event()
        try:
            while True:
                loop.add_reader(listener, have_come.set)
                await have_come.wait()
                loop.remove_reader(listener)
                have_come.clear()
                try:
                    for _ in range(AT_ONCE):
                        link, source = listener.accept()
                        visit = self._gate.arrive(source[0])
                        if visit is None:
                            link.close()
                        else:
                            self._begin(link, visit)
                except (BlockingIOError, ConnectionError):
                    pass
                except OSError as fault:  # such as too many open files
                    self._faults.tell("cannot accept a browser", why(fault))
                    await asyncio.sleep(AGAIN)
                if self._leaving:  # they are closed before more are opened
                    await asyncio.wait(self._leaving, timeout=AGAIN)
        finally:
            loop.remove_reader(listener)
            for serving in list(self._links):
                serving.cancel()
            await asyncio.gather(*self._links, return_exceptions=True)

    def _begin(self, link: socket.socket, visit: Visit) -> None:
        serving = asyncio.ensure_future(self._serve(link, visit))
        self._links.add(serving)

        def cancel() -> None:
            self._leaving.add(serving)
            serving.cancel()

        def end(_: "asyncio.Future[None]") -> None:
            self._links.discard(serving)
            self._leaving.discard(serving)
            visit.leave()
            link.close()
            if not serving.cancelled() and serving.exception() is not None:
                self._faults.tell("a page failed", repr(serving.exception()))

        visit.end = cancel
        serving.add_done_callback(end)

    async def _serve(self, link: socket.socket, visit: Visit) -> None:
        """Answers the requests of a link, until it ends."""
        reader, writer = await asyncio.open_connection(sock=link, limit=MOST_HEAD)
        writer.transport.set_write_buffer_limits(0)  # `drain` waits until the system has all
        seconds, is_kept = visit.deadline - time.monotonic(), True
        try:
            while is_kept:
                request = await _read(reader, writer, visit, seconds)
                answer = await self._answer(request)
                seconds, is_kept = PATIENCE, visit.is_known() and answer.pieces is None \
                    and request.fields.get("connection", "").lower() != "close"
                if not visit.is_known():
                    visit.part()
                await _send(writer, answer, is_kept)
                await asyncio.sleep(0)  # others are served before what it asks next
        except (asyncio.IncompleteReadError, asyncio.LimitOverrunError, OSError):
            pass  # a browser that is gone, or is let go
        finally:
            writer.transport.abort()


@contextlib.contextmanager
def _within(seconds: float, writer: asyncio.StreamWriter) -> Iterator[None]:
    """Ends a link if something takes longer. What reads or writes there is woken by that."""
    timer = asyncio.get_running_loop().call_later(seconds, writer.transport.abort)
    try:
        yield
    finally:
        timer.cancel()


async def _read(reader: asyncio.StreamReader, writer: asyncio.StreamWriter, visit: Visit,
                seconds: float) -> Request:
    """The next request of a link, whose head is to be whole within some seconds.

    Raises:
        IncompleteReadError: The link has ended, or was let go.
        LimitOverrunError: It is too long.
    """
    with _within(seconds, writer):
        head = await reader.readuntil(b"\r\n\r\n")
    if head.count(b"\n") > MOST_LINES:  # thousands of them would hold up all others
        raise asyncio.LimitOverrunError("many lines", 0)
    first, *lines = head[:-4].decode("latin-1").split("\r\n")
    parts = [line.partition(":") for line in lines]
    fields = {name.lower(): value.strip() for name, _, value in parts}
    length = fields.get("content-length", "0")
    if not (length.isascii() and length.isdigit() and len(length) < 9) or int(length) > MOST_BODY:
        raise asyncio.LimitOverrunError("a long body", 0)
    with _within(PATIENCE, writer):
        body = await reader.readexactly(int(length))
    method, path, *_ = [*first.split(" "), "", ""]
    return Request(method, path.partition("?")[0], fields, body, visit)


async def _send(writer: asyncio.StreamWriter, answer: Response, is_kept: bool) -> None:
    """Sends an answer.

    Raises:
        OSError: The browser is gone, or was let go.
    """
    head = HEAD.format(answer.status, answer.kind) + answer.line
    head += "" if is_kept else "Connection: close\r\n"
    if answer.pieces is None:
        with _within(PATIENCE, writer):
            head += f"Content-Length: {len(answer.body)}\r\n\r\n"
            writer.write(head.encode("latin-1") + answer.body)
            return await writer.drain()
    link: socket.socket = writer.get_extra_info("socket")
    link.setsockopt(socket.SOL_SOCKET, socket.SO_SNDBUF, 1 << 16)  # it misses pieces that are old
    writer.write(head.encode("latin-1") + b"\r\n")
    try:
        async for piece in answer.pieces:
            with _within(PATIENCE, writer):
                writer.write(piece)
                await writer.drain()
    finally:
        await answer.pieces.aclose()


def run(work: "Coroutine[Any, Any, None]") -> int:
    """Runs what serves pages until it is done, or a signal stops it. Returns the exit status."""
    numbers: List[int] = []

    async def whole() -> None:
        task = asyncio.ensure_future(work)

        def stop(number: int) -> None:
            numbers.append(number)
            task.cancel()

        for number in (signal.SIGINT, signal.SIGTERM, signal.SIGHUP):
            if signal.getsignal(number) is not signal.SIG_IGN:
                asyncio.get_running_loop().add_signal_handler(number, stop, number)
        await task

    try:
        asyncio.run(whole())
    except asyncio.CancelledError:
        return 128 + numbers[0]
    return 0
