"""Shows a game on a page, until ctrl-C, by the journal that the lobby writes.

The lobby shows this page itself if it has `--page PORT`. It is served by a
process of its own, at a lower priority, so it does not slow the game. Once a
tick, and at most once a second, it runs `tac play` on the game so far, and
computes the worth of each agent's best plan from its holdings, the cost of
missing goods at current prices, and the dollars that it has paid.

The page shows at once what each agent can ask itself, and late, by --late, the
scores, trades and standing bids. With --late 0 no agent may see the page. Seat
words are passwords: it calls an agent by the letters before the digits of its
word, if these differ between agents, and otherwise by its number.
"""

from __future__ import annotations

import argparse
import asyncio
import contextlib
import json
import time
from collections import deque
from pathlib import Path
from typing import Any, BinaryIO, Deque, Dict, List, Optional, Tuple

from geesefuton.arguments import Parser, whole
from geesefuton.hosting.journal import JournalError, JournalReader
from geesefuton.hosting.nights import Nights
from geesefuton.hosting.projection import Projection, View, project
from geesefuton.hosting.recovery import Player, RecoveryError
from geesefuton.hosting.viewers import Viewers
from geesefuton.network.addresses import listen
from geesefuton.network.pages import Faults, PageServer, page_gate, read_page, run
from geesefuton.processes import Children, command, give_way, tell, why
from geesefuton.records.games import TICKS
from geesefuton.records.logs import LogError
from geesefuton.records.seat_names import names_of

LOOK = 0.2  # seconds between looks at the journal
EACH = 1.0  # seconds between projections, at least; less if ticks are shorter
SHARE = 2  # projections may take one part of so many of the time
PIECE = 1 << 18  # bytes of the journal that are read at once
STALL = 3.0  # seconds by which a tick may be late until the page says that the journal has stopped
LINGER = 4.0  # seconds that screens have to get the last scores
NICE = 5  # by how much the priority is lower
PAGE = Path(__file__).with_name("live.html")


class Live:
    """Follows a journal, and shows what it says; before the game also how agents join it, and when
    it `begins` without those who are missing, by `time.monotonic`."""

    def __init__(self, journal: BinaryIO, view: View, player: Player, viewers: Viewers,
                 faults: Faults, joining: Optional[Dict[str, Any]] = None,
                 begins: Optional[float] = None) -> None:
        self._joining, self._begins = joining or {}, begins
        self._journal, self._view, self._player, self._viewers = journal, view, player, viewers
        self._faults, self._reader = faults, JournalReader()
        self._newest: Optional[Projection] = None
        self._nights: Optional[Nights] = None
        self._older: Deque[Projection] = deque()  # those that are not shown whole yet, one a tick
        self._zero: Optional[float] = None  # when the welcome was sent
        self._heard = time.monotonic()  # when the journal's last piece came
        self._shown = ""
        self._is_cut, self._has_ended, self._is_final = False, False, False

    def is_over(self) -> bool:
        """Whether the journal says that the server has ended, or nobody writes it any more."""
        return self._reader.status is not None or self._has_ended

    def cut(self) -> None:
        """Nobody writes the journal any more; what it has is still read."""
        self._is_cut = True

    def results(self) -> List[Tuple[str, int]]:
        """After the game the names and the scores of its agents; none if they are not known."""
        game, newest = self._reader.game, self._newest
        if game is None or newest is None:
            return []
        names = names_of(game.words, self._view.by_word)
        return [(name, row[3]) for name, row in zip(names, newest.scores)]

    async def follow(self) -> None:
        """Reads what the lobby writes, until the game is over."""
        rest = b""
        while not self.is_over():
            was_cut, piece = self._is_cut, self._journal.read(PIECE)
            if piece:
                whole, _, rest = (rest + piece).rpartition(b"\n")
                self._read(whole.decode("latin-1"))
            elif was_cut:
                self._has_ended = True
            await asyncio.sleep(LOOK if len(piece) < PIECE else 0.01)
            if len(piece) < PIECE:
                await self.show()

    def _read(self, text: str) -> None:
        reader = self._reader
        reader.read(text)
        self._heard = time.monotonic()
        if reader.has_begun:
            # A line is read at its time or later; a journal that is long already comes in pieces.
            began = self._heard - reader.time / 1000
            self._zero = began if self._zero is None else min(self._zero, began)
            self._nights = self._nights or Nights(reader)
            self._nights.follow(reader)

    async def project(self) -> None:
        """Makes projections, while something changes, until the game is over."""
        known: Optional[Tuple[int, bool]] = None
        took = 0.0
        while not self._is_final:
            is_over = self.is_over()
            now = self._reader.lines, is_over
            would_be_shown = self._reader.has_begun and (is_over or self._view.late < TICKS)
            if would_be_shown and known != now:
                known, start = now, time.monotonic()
                await self._make_projection()
                took = time.monotonic() - start
            self._is_final = is_over
            await self.show()
            each = min(EACH, self._reader.pace / 1000 or EACH)
            due = time.monotonic() + max(each - took, (SHARE - 1) * took)
            while time.monotonic() < due and not self.is_over():
                await asyncio.sleep(min(0.1, each))

    async def _make_projection(self) -> None:
        """Makes a projection, unless something fails: then the page goes on with what it has."""
        assert self._nights is not None
        reader, nights = self._reader.copy(), self._nights.now()
        try:
            self._add(await asyncio.to_thread(project, reader, nights, self._player))
        except (RecoveryError, LogError, OSError) as fault:  # such as too many open files
            self._faults.tell(f"live: no scores at tick {reader.tick}", why(fault))

    def _add(self, made: Projection) -> None:
        self._newest = made
        if self._view.late >= TICKS:
            return
        if self._older and self._older[-1].tick == made.tick:
            self._older.pop()
        self._older.append(made)
        while len(self._older) > 1 and self._older[1].tick <= self._reader.tick - self._view.late:
            self._older.popleft()

    def _secret(self) -> Optional[Projection]:
        """The projection of which all may be shown."""
        if self._is_final or not self._view.late:
            return self._newest
        old = self._older[0] if self._older else None
        return old if old and old.tick <= self._reader.tick - self._view.late else None

    def _is_stalled(self) -> bool:
        """Whether the journal should have gone on, and has not: its disk is full, for instance."""
        if not self._reader.has_begun or self._reader.tick >= TICKS or self.is_over():
            return False
        return time.monotonic() - self._heard > self._reader.pace / 1000 + STALL

    async def show(self) -> None:
        """Sends a new state to the viewers, if it is another one."""
        if self._reader.game is None:
            text = json.dumps({"phase": "empty", "over": self._is_final})
        else:
            state = self._view.state(self._reader, self._nights.now() if self._nights else None,
                                     self._secret(), self._is_final)
            joining = self._joining if state["phase"] == "waiting" else {}
            text = json.dumps({**state, **joining, "stalled": self._is_stalled()},
                              separators=(",", ":"))
        if text == self._shown:
            return
        self._shown = text
        if self._zero is not None:
            elapsed = int((time.monotonic() - self._zero) * 1000)
            text = f'{text[:-1]},"elapsed":{elapsed}}}'
        elif self._begins is not None:
            begins = int((self._begins - time.monotonic()) * 1000)
            text = f'{text[:-1]},"begins":{begins}}}'
        await self._viewers.show(text.encode("ascii"), self._is_final)


async def _run(given: argparse.Namespace, journal: BinaryIO, player: Player) -> None:
    faults, viewers = Faults(tell), Viewers(read_page(PAGE))
    live = Live(journal, View(given.late, given.names), player, viewers, faults)
    with contextlib.closing(listen(given.port)) as listener:
        server = PageServer(viewers.answer, page_gate(), faults)
        await asyncio.gather(server.serve(listener), live.follow(), live.project())


def _arguments() -> argparse.Namespace:
    parser = Parser("live", __doc__)
    add = parser.add_argument
    add("journal", type=Path, help="the journal of the game")
    add("port", type=whole(1, 65535), help="the port of the page, 1 to 65535")
    add("--late", type=whole(0, TICKS), default=6, metavar="TICKS",
        help="show what agents cannot ask this many ticks late (default: 6)")
    add("--names", action="store_true", help="show agents by their seat words, which are passwords")
    return parser.parse_args()


def _main() -> int:
    given = _arguments()
    give_way(NICE)
    with given.journal.open("rb") as journal, Children() as children:
        try:
            return run(_run(given, journal, Player(children.folder("live"))))
        except JournalError as fault:
            raise JournalError(f"{given.journal}: {fault}") from None


def main() -> int:
    """The command `live`."""
    return command("live", _main)
