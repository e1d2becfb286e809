"""What a game's page answers its screens: the page, the newest state, and the states as they come.
"""

from __future__ import annotations

from typing import AsyncGenerator, Optional

from geesefuton.hosting.handouts import Handouts
from geesefuton.network.pages import Bell, Request, Response
from geesefuton.playing.seat_page import Site

BEAT = 2.0  # seconds after which a screen hears that the page goes on
NOT_FOUND = Response("404 Not Found", "text/plain", b"the page is at /\n")


class Viewers:
    """The screens of a page. Each gets the newest state when it can take it, and misses those
    between. The page may be replaced. Persons may play the seats of a site at the same port."""

    def __init__(self, page: bytes, site: Optional[Site] = None) -> None:
        self.page, self.count = page, 0  # and how many screens follow the states
        self.handouts: Optional[Handouts] = None  # what authors of agents are given
        self._state, self._number, self._is_final = b"{}", 0, False
        self._site, self._bell = site, Bell()

    async def show(self, state: bytes, is_final: bool) -> None:
        """Sends a new state to all screens."""
        self._state, self._number, self._is_final = state, self._number + 1, is_final
        self._bell.ring()

    async def answer(self, request: Request) -> Response:
        """Answers a request of a screen, or of anybody else."""
        path, site = request.path, self._site
        if site is not None and (path, request.method) == ("/play", "POST"):
            return await site.join(request)
        if site is not None and site.find(request) is not None:
            return await site.answer(request)
        if request.method != "GET":
            return NOT_FOUND
        if path == "/":
            return Response("200 OK", "text/html; charset=utf-8", self.page)
        if path == "/state":
            return Response("200 OK", "application/json", self._state)
        if path == "/events":
            return Response("200 OK", "text/event-stream", pieces=self._events())
        given = self.handouts and self.handouts.answer(path, request.fields.get("host", ""))
        return given or NOT_FOUND

    async def _events(self) -> AsyncGenerator[bytes, None]:
        """The states, and in between that the page goes on."""
        self.count += 1
        try:
            yield b"retry: 1000\n\n"
            seen = 0
            while not (self._is_final and seen == self._number):
                await self._bell.wait_until(lambda: self._number != seen, BEAT)
                is_fresh, seen = self._number != seen, self._number
                yield (b"data: " + self._state + b"\n\n" if is_fresh
                       else b"event: here\ndata: still\n\n")
            yield b"event: end\ndata: over\n\n"
        finally:
            self.count -= 1
