"""The page of a practice room: its standings between games, and each game while it runs.

The room writes a file (`Board`), and the page's process reads it now and then: so a page that hangs
or has ended does not hold up the games. The page stays at one port from game to game. A screen that
receives a state that its page does not show reloads the page, so all screens follow by themselves.
A game's final scores stay for a while, unless the next game begins.
"""

from __future__ import annotations

import asyncio
import contextlib
import json
import os
import sys
import time
from functools import partial
from pathlib import Path
from typing import Any, Callable, Dict, Optional

from geesefuton.hosting.handouts import Handouts
from geesefuton.hosting.live import LINGER, NICE, PAGE, Live
from geesefuton.hosting.page_process import SideProcess
from geesefuton.hosting.projection import View
from geesefuton.hosting.recovery import Player
from geesefuton.hosting.viewers import Viewers
from geesefuton.network.addresses import listen
from geesefuton.network.pages import Faults, PageServer, page_gate, read_page, run
from geesefuton.playing.seat_page import Host, Site
from geesefuton.processes import Children, command, give_way, tell, why

LOOK = 0.25  # seconds between two looks at what the room shows
STAY = 20.0  # seconds for which final scores stay
STOPPED = 3.0  # seconds for which a game stays that was stopped
SHOWING = 60.0  # seconds that the page has to show the last scores


class Board:
    """What the room lets its page show.

    Args:
        children: By which the page's process is started.
        given: What that is told: the `port` for agents, that of the `page` (None for no page), the
            host's `address`, the `pace` in milliseconds, and by how many ticks it shows `late` what
            agents cannot ask.
        tell: Is given a line for the host.
    """

    def __init__(self, children: Children, given: Dict[str, Any],
                 tell: Callable[[str], None]) -> None:
        self._page, self._tell, self._told = given["page"], tell, ""
        self._file = children.folder("board") / "board"
        line = json.dumps({**given, "board": str(self._file)}).encode("ascii") + b"\n"
        self._process = SideProcess(children, "the page", "geesefuton.practice.page", lambda: line)
        self._shown: Dict[str, Any] = {}

    def show(self, what: Dict[str, Any]) -> None:
        """Shows the game of the file `journal`, whose agents have `names`, or the `room` while that
        is None; `words` says how who has a seat word is called. Starts the page's process if it
        does not run. A fault is told, unless it was told last."""
        self._shown, new = what, self._file.with_suffix(".new")
        if self._page is None:
            return
        try:
            new.write_text(json.dumps({"is_over": False, **what}), encoding="ascii")
            os.replace(new, self._file)
            fault = self._process.look()
        except OSError as failed:
            fault = f"cannot show the page: {why(failed)}"
        if fault and fault != self._told:
            self._told = fault
            self._tell(fault)

    def close(self, is_stopped: Callable[[], bool]) -> None:
        """The room is over: waits until all screens have been sent what was shown last, for a while
        and unless the room is stopped."""
        if self._process.is_running():
            self.show({**self._shown, "is_over": True})
            self._process.wait(SHOWING, is_stopped)
        self._process.close()


class RoomPage(Viewers):
    """What the screens of a room are sent: what its file says, or a game, of which is shown some
    ticks late what agents cannot ask, and whose seats are called by their players."""

    def __init__(self, given: Dict[str, Any], player: Player, faults: Faults) -> None:
        self._file, self._late, self._player = Path(given["board"]), given["late"], player
        self._faults = faults
        self._room, self._live = map(read_page, (Path(__file__).with_name("room.html"), PAGE))
        self.site = Site(Host("127.0.0.1", given["port"], given["pace"]))
        super().__init__(self._room, self.site)
        self.handouts = handouts = Handouts(given["port"], given["address"], given["page"],
                                            again=True)
        self._joining, self._names = handouts.told, list[str]()
        self._shown, self._last = b"", b"{}"  # of the room, and of all, the state sent last

    async def show(self, state: bytes, is_final: bool) -> None:
        """Sends a new state to all screens. No state of a game is the last one."""
        what = json.loads(state)
        for agent, name in zip(what.get("agents", ()), self._names):
            agent["name"] = name
        self._last = json.dumps(what, separators=(",", ":")).encode("ascii")
        await super().show(self._last, False)

    async def follow(self) -> None:
        """Shows what the room says, until it is over and all screens have its last state, for which
        they have a while."""
        shown: Optional[str] = None  # the journal that was shown last
        while True:
            what = self._read()
            if what is not None and what["journal"] not in (None, shown):
                shown = what["journal"]
                await self._play(what)
            elif what is not None and not what["is_over"]:
                await self._show_room(what["room"])
            elif what is not None:
                break
            await asyncio.sleep(LOOK)
        await super().show(self._last, True)
        deadline = time.monotonic() + LINGER
        while self.count and time.monotonic() < deadline:
            await asyncio.sleep(LOOK)

    def _read(self) -> Optional[Dict[str, Any]]:
        try:
            what: Dict[str, Any] = json.loads(self._file.read_bytes())
        except OSError as fault:
            self._faults.tell("room: cannot make the page", why(fault))
            return None
        self.site.host.names = what["words"]
        self.site.host.has_results = "tables" not in what["room"]
        return what

    async def _show_room(self, room: Dict[str, Any]) -> None:
        """Shows the room, with the seconds until its game begins."""
        left = None if room["begins"] is None else max(0, round(room["begins"] - time.time()))
        text = json.dumps({**room, **self._joining, "left": left}).encode("ascii")
        if text != self._shown:
            self._shown, self.page = text, self._room
            await self.show(text, False)

    async def _play(self, what: Dict[str, Any]) -> None:
        """Shows a game, until a while after its end, or until the room shows another one or is
        over."""
        journal, self.page, self._shown = what["journal"], self._live, b""
        try:
            with open(journal, "rb") as opened:
                live = Live(opened, View(self._late, True), self._player, self, self._faults)
                tasks = [asyncio.ensure_future(live.follow()),
                         asyncio.ensure_future(live.project())]
                last = time.monotonic()  # when the game was going on, or its scores were made
                while what["journal"] in (None, journal) and not any(
                        task.done() and task.exception() for task in tasks):
                    is_going = what["journal"] is not None and not what["is_over"]
                    if is_going:
                        self._names = what["names"]
                    has_scores = tasks[1].done()
                    if has_scores:
                        self._tell_seats(live)
                    if not has_scores if live.is_over() else is_going:
                        last = time.monotonic()
                    if what["is_over"] and has_scores or \
                            time.monotonic() > last + (STAY if live.is_over() else STOPPED):
                        break
                    await asyncio.sleep(LOOK)
                    what = self._read() or what
                for task in tasks:
                    task.cancel()
                for told in await asyncio.gather(*tasks, return_exceptions=True):
                    if isinstance(told, Exception):
                        raise told
        except Exception as fault:  # it costs the screens this game, and not the room's page
            self._faults.tell(f"room: cannot show {journal}", why(fault) or repr(fault))

    def _tell_seats(self, live: Live) -> None:
        """Gives the scores of a game that is over to those who have played in it by hand."""
        results = [(name, score) for name, (_, score) in zip(self._names, live.results())]
        for table in self.site.tables:
            if results and not table.results and table.seat.phase in ("over", "failed"):
                table.end(results)


async def _run(given: Dict[str, Any], player: Player) -> None:
    faults = Faults(tell)
    page = RoomPage(given, player, faults)
    with contextlib.closing(listen(given["page"])) as listener:
        server = PageServer(page.answer, page_gate(), faults)
        serving = asyncio.ensure_future(server.serve(listener))
        await page.follow()
        serving.cancel()


def _main() -> int:
    give_way(NICE)
    given: Dict[str, Any] = json.loads(sys.stdin.readline())
    with Children() as children:
        return run(_run(given, Player(children.folder("page"))))


main = partial(command, "page", _main)  # a line of its standard input says what it shows
