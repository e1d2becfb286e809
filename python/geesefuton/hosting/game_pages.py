"""The process that serves the pages of a game: the board, and the seats that persons play.

The lobby starts it, and alone decides when it ends. Standard input is a pipe: its first line says
what is to be served, so that no seat word stands among the words of a process, which everybody on
the host may read. The pipe's end says that the game is over, even if its journal has no end, as on
a full disk: then screens and players have a while to get the last scores.
"""

from __future__ import annotations

import asyncio
import contextlib
import json
import os
import time
from typing import Any, Dict

from geesefuton.hosting.handouts import Handouts
from geesefuton.hosting.journal import JournalError
from geesefuton.hosting.live import LINGER, NICE, PAGE, Live
from geesefuton.hosting.projection import View
from geesefuton.hosting.recovery import Player
from geesefuton.hosting.viewers import Viewers
from geesefuton.network.addresses import listen, own_address
from geesefuton.network.pages import Faults, PageServer, page_gate, read_page, run
from geesefuton.playing.seat_page import Host, Site
from geesefuton.processes import Children, command, give_way, tell
from geesefuton.records.seat_names import names_of

TELLING = 30.0  # seconds that players have to get the result
LOOK = 0.05  # seconds between two looks at whether all have them
GRACE = 0.5  # seconds for what is being sent


async def _follow(live: Live, site: Site, ended: "asyncio.Future[None]") -> None:
    """Shows the game until it is over. The seats go on without the board."""
    ended.add_done_callback(lambda _: live.cut())
    try:
        await asyncio.gather(live.follow(), live.project())
        for table in site.tables:
            table.end(live.results())
    except JournalError as fault:
        tell(f"the page shows nothing more of the game: {fault}")


def _end_of_standard_input() -> "asyncio.Future[None]":
    """What is done at the end of standard input."""
    loop = asyncio.get_running_loop()
    ended: "asyncio.Future[None]" = loop.create_future()

    def look() -> None:
        if not os.read(0, 4096):
            loop.remove_reader(0)
            ended.set_result(None)

    loop.add_reader(0, look)
    return ended


async def _serve(given: Dict[str, Any], player: Player) -> None:
    """Serves the pages until the lobby has ended the game, and a while longer."""
    ended, words = _end_of_standard_input(), [word for word, _ in given["seats"]]
    names = dict(zip(words, names_of(words, given["names"])))
    site = Site(Host("127.0.0.1", given["port"], given["pace"], given["form"], given["advice"],
                     names, False, given["journal"] is not None), given["seats"])
    faults, viewers = Faults(tell), Viewers(read_page(PAGE), site)
    with contextlib.ExitStack() as stack:
        listener = stack.enter_context(contextlib.closing(listen(given["page"])))
        server = PageServer(viewers.answer, page_gate(), faults)
        serving = asyncio.ensure_future(server.serve(listener))
        if given["journal"] is not None:
            journal = stack.enter_context(open(given["journal"], "rb"))
            handouts = viewers.handouts = Handouts(given["port"], own_address(), given["page"],
                                                   given["form"] == "words")
            begins = None if given["begins"] is None else time.monotonic() + given["begins"]
            await _follow(Live(journal, View(given["late"], given["names"]), player, viewers,
                               faults, handouts.told, begins), site, ended)
        await ended
        await _linger(viewers, site)
        serving.cancel()
        await asyncio.gather(serving, return_exceptions=True)


async def _linger(viewers: Viewers, site: Site) -> None:
    """Waits until the screens and the players have the last scores, for a while at most."""
    begun, passed = time.monotonic(), 0.0
    played = [table for table in site.tables if table.seat.phase not in ("idle", "failed")]
    while passed < TELLING and (viewers.count and passed < LINGER or any(
            table.pages.is_open() and not table.is_told for table in played)):
        await asyncio.sleep(LOOK)
        passed = time.monotonic() - begun
    await asyncio.sleep(GRACE if played else 0)


def _main() -> int:
    give_way(NICE)
    with os.fdopen(0, "rb", buffering=0, closefd=False) as told:
        given: Dict[str, Any] = json.loads(told.readline())
    with Children() as children:
        return run(_serve(given, Player(children.folder("pages"))))


def main() -> int:
    """The process of the pages."""
    return command("the page", _main)
