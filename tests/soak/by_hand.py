"""A game of eight seats by hand: headless Chromium joins eight times at the page of a lobby, and
only what a person sees there is tapped.

    python3 -m tests.soak.by_hand SEED

Each seat buys what its board of trips lacks, offers a ticket and takes it back, and is refused
once. In the end each page has to show the seat's rank, the log has to be sound, with bids of all
eight agents that were admitted, and `tac vouch` has to find in it the whole of each seat's link,
whose bytes the journal has. It takes some four minutes.
"""

import contextlib
import time
from pathlib import Path
from typing import Dict, Iterator, List

from geesefuton.hosting.server_links import server_links
from geesefuton.processes import Children
from geesefuton.records.games import SEATS, TICKS
from geesefuton.records.logs import Log, read_log
from geesefuton.records.replies import Taken
from tests.support import soaking
from tests.support.browser import Browser, BrowserError, Tab, is_seen, wait_for

PACE = 3000  # milliseconds from tick to tick
LIMIT = 600.0  # seconds that all of it may take besides its ticks, on a busy machine
SOON = 30.0  # seconds that an answer may take, on a busy machine
DUE = ("a ticket is offered", "an offer is taken back", "a refusal says why",
       "the rank is shown")  # what each seat has to see


def bid(tab: Tab, tile: str, button: str, sell: bool = False, kind: str = "button.tile") -> bool:
    """Bids by two taps, or three to sell; whether the panel could be used so."""
    if not tab.tap(kind, tile):
        return False
    if sell:
        tab.tap("label", "Sell")
    has_tapped = tab.tap("dialog button", button)
    is_seen(lambda: not tab.value("document.querySelector('dialog').open")
            or tab.value("document.getElementById('refused').textContent"), SOON)
    tab.tap("dialog button", "^Close$")  # if it is open still, as where the auction has closed
    return has_tapped


class Player:
    """Plays a seat by what its page shows.

    Args:
        tab: The page.
        number: Of the seat, 0 to 7.
    """

    def __init__(self, tab: Tab, number: int) -> None:
        self.tab, self._number, self._step = tab, number, 0
        self.seen: Dict[str, bool] = {}  # what was tried, and whether it was seen

    def play(self) -> None:
        step, self._step = self._step, self._step + 1
        first, other = 1 + self._number % 4, 1 + (self._number + 1) % 4
        if step == 0:
            self.seen["a ticket is offered"] = bid(self.tab, f"Museum, night {first}", "sell", True)
        elif step == 1:
            self.tab.tap("button.tile", f"Museum, night {first}")
            self.seen["an offer is taken back"] = self.tab.tap("dialog button", "Withdraw")
        elif step == 2:
            self._refused(other)
        elif step < 6:
            bid(self.tab, f"(Shanties|Towers), night {other}", "Bid to buy")
        else:
            bid(self.tab, "Client .*to be had", "uy", kind="button.part")

    def _refused(self, night: int) -> None:
        """A bid for 17 units, which is more than the buttons allow."""
        self.tab.tap("button.tile", f"Towers, night {night}")
        self.tab.tap("dialog input", "^$")
        self.tab.call("Input.insertText", text="17")
        self.tab.tap("dialog button.main", "uy")
        self.seen["a refusal says why"] = is_seen(lambda: self.tab.sees("at most 16 units"), SOON)
        self.tab.tap("dialog button", "^Close$")


def joined(browser: Browser, port: int, number: int) -> Tab:
    """The page of a seat, which is joined by its word."""
    tab = Tab(browser, "about:blank")

    def is_there() -> bool:
        tab.call("Page.navigate", url=f"http://127.0.0.1:{port}/join")
        time.sleep(0.3)
        return tab.sees("Join the game")

    wait_for("a page on which to join", is_there, LIMIT)
    tab.tap("input", "")
    tab.call("Input.insertText", text=f"seat{number}")
    tab.tap("button", "Play in this browser")
    return tab


def play(game: soaking.Hosted, browser: Browser) -> List[Player]:
    """Plays a game.

    Raises:
        BrowserError: It could not be played by hand.
    """
    lobby = game.start(PACE, "--page", game.page)
    players = [Player(joined(browser, game.page, number), number) for number in range(SEATS)]
    until, is_over = time.monotonic() + LIMIT + TICKS * PACE / 1000, False
    while not is_over and time.monotonic() < until:
        is_over = lobby.poll() is not None  # the pages are looked at once more then
        for player in players:
            if player.tab.sees("[0-9] of 54"):
                player.play()
            elif player.tab.sees("Game over"):
                player.seen["the rank is shown"] = player.tab.sees("agent [0-7]: [1-8][a-z]+ of 8")
        time.sleep(0.1)
    if not is_over:
        raise BrowserError("the game did not end")
    return players


def faults_of(players: List[Player], log: Log) -> Iterator[str]:
    for number, player in enumerate(players):
        yield from (f"seat{number}: not seen: {what}" for what in DUE if not player.seen.get(what))
        taken = sum(entry.caller == number and isinstance(entry.reply, Taken)
                    for history in log.histories for entry in history)
        if taken < 5:
            yield f"seat{number}: only {taken} bids were admitted"


def soak(seed: int, folder: Path, children: Children) -> Iterator[str]:
    game = soaking.Hosted(children, folder, seed)
    try:
        with contextlib.closing(Browser(children)) as browser:
            players = play(game, browser)
    except BrowserError as fault:
        yield str(fault)
        return
    yield from game.unsound()
    yield from faults_of(players, read_log(game.log.read_bytes()))
    files = folder / "asked", folder / "said"
    for number, link in enumerate(server_links(game.journal)):
        for file, data in zip(files, link):
            file.write_bytes(data)
        yield from game.not_whole(number, *files)


if __name__ == "__main__":
    soaking.main("by_hand", __doc__, soak)
