"""The pages in headless Chromium: a seat is played by the keyboard alone, a screen that was cut off
is back by itself, starters are handed out, and a game is shown.

    python3 -m tests.soak.pages SEED [--keep FOLDER]

It looks at the seat's page at 320, 390 and 1280 pixels, light and dark, before a stand-in of a
server: each thing that can be used has a name for a screen reader, and the keyboard reaches it. It
plays a game of eight agents, and looks at its board at 1280 x 720 and 390 pixels, light and dark,
while it waits, at ticks 14, 36 and 54, and after the game; there texts have to be large enough. It
keeps pictures of all that in the folder. It takes some four minutes.
"""

import contextlib
import re
import socket
import subprocess
import time
from pathlib import Path
from typing import Iterator, NamedTuple

from geesefuton.hosting.page_process import PageProcess
from geesefuton.hosting.settings import LobbySettings
from geesefuton.processes import Children, free_port
from geesefuton.records.games import TICKS
from tests.package.cases import is_listening
from tests.package.seat_server import SeatServer
from tests.support import soaking
from tests.support.browser import MOST, Browser, BrowserError, Tab, wait_for
from tests.support.soaking import Hosted, example
from tests.support.trying import COMMAND, TOP

PACE = 2000  # milliseconds from tick to tick
USED = ("button", "spinbutton", "checkbox", "radio", "link", "textbox", "dialog")
AGENTS = ("planner", "trader", "baseline", "planner", "trader", "baseline", "planner", "watcher")
JOURNAL = TOP / "tests" / "package" / "data" / "lobby.journal"
SETTLED = 1.0  # seconds after which the rows of the standings are in their places
LEAST, LARGE = 18.0, 24.0  # px of 720: of all texts, and of those that matter
MATTERS = "#tick, .left div, .row .name, .row .score, .event p:first-child, .join p"
# The smallest text that is seen, in CSS pixels, and what it says.
SMALLEST = """(() => {
  const walk = document.createTreeWalker(document.body, NodeFilter.SHOW_TEXT);
  let least = [1000, ""];
  for (let text = walk.nextNode(); text; text = walk.nextNode()) {
    const place = text.parentElement, style = getComputedStyle(place);
    const isSeen = place.getClientRects().length && style.visibility === "visible";
    const size = parseFloat(style.fontSize);
    if (isSeen && size && text.data.trim() && size < least[0]) least = [size, text.data.trim()];
  }
  return least;
})()"""
SMALL_ONES = """[...document.querySelectorAll(%r)].filter(one => one.getClientRects().length)
  .map(one => parseFloat(getComputedStyle(one).fontSize)).reduce((a, b) => Math.min(a, b), 1000)"""
OVERFLOWS = "document.documentElement.scrollWidth > document.documentElement.clientWidth + 1"


class Look(NamedTuple):
    """A size of a screen, and its theme."""

    width: int
    height: int
    theme: str

    def tab(self, browser: Browser, address: str) -> Tab:
        return Tab(browser, f"{address}#{self.theme}", self.width, self.height)

    def __str__(self) -> str:
        return f"{self.width}-{self.theme}"


LOOKS = [Look(width, height, theme) for width, height in ((1280, 720), (390, 844))
         for theme in ("light", "dark")]
NARROW = Look(320, 700, "light")


def asked(server: SeatServer, line: str) -> None:
    """Waits until the server was asked a line."""
    wait_for(f"`{line}`, of {server.heard[-3:]}", lambda: line in server.heard)


@contextlib.contextmanager
def seat(children: Children, server: SeatServer) -> Iterator[str]:
    """Runs the process that serves the page of a seat, whose address is given."""
    port = free_port()
    settings = LobbySettings(JOURNAL, server.port, 60000, None, page=port)
    pages = PageProcess(children, settings, ["seat3"], server.port, None)
    pages.look()
    wait_for("the page's port", lambda: is_listening(port))
    try:
        yield f"http://127.0.0.1:{port}/{pages.seats[0][1]}/"
    finally:
        pages.end()


def play_by_keys(keys: Tab, server: SeatServer) -> None:
    """Bids, is refused, sells and withdraws, by the keyboard alone."""
    wait_for("the market", lambda: keys.sees("Flights in"))
    keys.reach("^Client 1: Flights in, day 1")
    keys.press("Enter")
    keys.reach("^(Bid to b|B)uy ")
    keys.press("Escape")
    keys.reach("^Client .: Flights in, day 2", "ArrowRight")
    keys.reach("^Flights in, day 1")
    keys.reach("^Shoreline Shanties, night 1: price 0", "ArrowDown")
    keys.press("Enter")
    keys.reach("^Bid to buy 1 that no trip uses")
    keys.reach("^price$", shift=True)
    keys.value("document.activeElement.select()")
    keys.press(*"77")
    keys.press("Enter")
    wait_for("the question", lambda: keys.sees("Yes, bid to buy 1"))
    keys.press("Enter")
    asked(server, "bid 8 ((1 77))")
    wait_for("the bid at its price", lambda: "your bid: buy 1 at 77" in keys.focused())
    server.refusals["bid 8"] = "@5 no belowquote 2 78 1"
    keys.press("Enter")
    keys.reach("^Bid to buy 1 that no trip uses")
    keys.press("Enter", "Enter")
    wait_for("why it is refused",
             lambda: keys.sees("Too low: a new bid has to offer 2 rooms at 78"))
    wait_for("the button again", lambda: re.search("uy 2$", keys.focused()) is not None)
    keys.press("Escape")
    wait_for("the price again", lambda: "Shanties, night 1" in keys.focused())
    server.closed = [8]  # what has the focus closes
    wait_for("the closing", lambda: keys.sees("closed"))
    keys.reach("^Alligator wrestling, night 1", "ArrowDown")
    keys.press("Enter")
    keys.reach("^(Bid to b|B)uy 1$")
    for _ in range(12):  # the two sides are one stop, without a text of their own
        if keys.value("document.activeElement.name") == "side":
            break
        keys.press("Tab", shift=True)
    keys.press("ArrowRight")
    keys.press("Enter")
    asked(server, "bid 16 ((-1 100))")
    wait_for("the offer at its price", lambda: "your bid: sell 1 at 100" in keys.focused())
    keys.press("Enter")
    keys.reach("^Withdraw$")
    keys.press("Enter")
    asked(server, "withdraw 16")
    wait_for("the price without an offer", lambda: "your bid" not in keys.focused())


def faults_of(tab: Tab, name: str) -> Iterator[str]:
    """What is wrong with any page: things that can be used and have no name for a screen reader,
    and what is wider than the screen."""
    for each in tab.nodes():
        if each["role"] in USED and not each["name"].strip():
            yield f"{name}: no name: {each['role']}"
    if tab.value(OVERFLOWS):
        yield f"{name}: it is wider than the screen"


def look_at_seats(children: Children, browser: Browser, folder: Path) -> Iterator[str]:
    for look in (*LOOKS, NARROW):
        server = SeatServer()
        with contextlib.closing(server), seat(children, server) as address:
            tab = look.tab(browser, address)
            try:
                play_by_keys(tab, server)
            except BrowserError as fault:
                yield f"seat {look}: {fault}"
            yield from faults_of(tab, f"seat {look}")
            tab.picture(folder / f"seat-{look}.png")
            tab.close()


def refuse(port: int, times: int) -> None:
    """Answers so many requests by 503, as the page does when there are too many screens."""
    with socket.create_server(("", port)) as listener:
        listener.settimeout(MOST)
        for _ in range(times):
            link, _ = listener.accept()
            with link, contextlib.suppress(OSError):
                link.settimeout(2.0)
                link.recv(65536)
                link.sendall(b"HTTP/1.1 503 Service Unavailable\r\nContent-Length: 0\r\n\r\n")


def look_at_a_lost_screen(children: Children, browser: Browser) -> Iterator[str]:
    """What is wrong with a screen whose host goes away, refuses, and is back."""
    port, folder = free_port(), children.folder("screen")
    part = folder / "part.journal"
    lines = JOURNAL.read_bytes().split(b"\n")
    part.write_bytes(b"\n".join(lines[:len(lines) // 3]) + b"\n")
    words = [*COMMAND, "live", str(part), str(port)]

    def start() -> "subprocess.Popen[bytes]":
        return children.start(words, stdin=subprocess.DEVNULL, stderr=subprocess.DEVNULL)

    def sign() -> str:
        return str(tab.value("document.getElementById('sign').textContent") or "")

    first = start()
    wait_for("the page's port", lambda: is_listening(port))
    tab = LOOKS[0].tab(browser, f"http://127.0.0.1:{port}/")
    wait_for("the game", lambda: tab.sees("Tick [0-9]+ of 54"))
    children.end(first)
    wait_for("that nothing is heard", lambda: "No news from the host" in sign())
    refuse(port, 3)
    again = start()
    try:
        wait_for("news after the host was away", lambda: "No news" not in sign())
    except BrowserError as fault:
        yield f"screen: {fault}"
    finally:
        children.end(again)
        tab.close()


def look_at_starters(children: Children, browser: Browser, port: int) -> Iterator[str]:
    """What is wrong with the page on which a game is joined, from which a starter is fetched."""
    folder = children.folder("downloads")
    browser.call("Browser.setDownloadBehavior", behavior="deny")
    for look in LOOKS:
        tab = look.tab(browser, f"http://127.0.0.1:{port}/join")
        wait_for("the page of starters", lambda: tab.sees("Or let an agent play"))
        tab.call("Page.setDownloadBehavior", behavior="allow", downloadPath=str(folder))
        tab.reach("^Download starter.py$")
        tab.press("Enter")
        wait_for("that a word is needed", lambda: tab.sees("Type the word of your seat first"))
        tab.press(*"red7k")
        tab.reach("^Download starter.py$")
        tab.press("Enter")
        wait_for("the starter", lambda: any(folder.glob("starter*.py")))
        time.sleep(0.5)
        file = next(folder.glob("starter*.py"))
        if 'WORD = "red7k"' not in file.read_text():
            yield f"join {look}: the word is not in the file"
        file.unlink()
        yield from faults_of(tab, f"join {look}")
        tab.close()


class Board:
    """A game of eight agents, with its page on four screens.

    Args:
        children: By which it is played.
        browser: Where it is looked at.
        folder: Where the pictures go.
        seed: Of the game.
    """

    def __init__(self, children: Children, browser: Browser, folder: Path, seed: int) -> None:
        self._folder = folder
        self._game = Hosted(children, children.folder("board"), seed)
        self._game.start(PACE, "--page", self._game.page)
        self.port = self._game.page
        wait_for("the page's port", lambda: is_listening(self.port))
        self._tabs = {look: look.tab(browser, f"http://127.0.0.1:{self.port}/") for look in LOOKS}

    def look(self, name: str, pattern: str) -> Iterator[str]:
        """Waits until each screen shows something, keeps pictures, and measures texts."""
        most = MOST + TICKS * PACE / 1000  # a slow game has its ticks later
        for look, tab in self._tabs.items():
            wait_for(f"{pattern} at {look}", lambda: tab.sees(pattern), most)
        time.sleep(SETTLED)
        for look, tab in self._tabs.items():
            tab.picture(self._folder / f"{name}-{look}.png")
            size, text = tab.value(SMALLEST)
            large = tab.value(SMALL_ONES % MATTERS)
            if look.width == 1280 and (size < LEAST - 0.5 or large < LARGE - 0.5):
                yield f"{name} {look}: {size:.1f} px: {text}; {large:.1f} px of what matters"
            if tab.value(OVERFLOWS):
                yield f"{name} {look}: it is wider than the screen"

    def play(self) -> Iterator[str]:
        yield from self.look("waiting", "Waiting for agents")
        for seat_number, name in enumerate(AGENTS):
            self._game.join(seat_number, example(name), PACE / 1000)
        for tick in (14, 36):
            yield from self.look(f"tick{tick}", f"Tick {tick} of 54|Tick {tick + 1} of 54")
        yield from self.look("tick54", "All is closed|The game is over")
        yield from self.look("after", "The game is over")


def soak(seed: int, folder: Path, children: Children) -> Iterator[str]:
    def looked() -> Iterator[Iterator[str]]:
        yield look_at_seats(children, browser, folder)
        yield look_at_a_lost_screen(children, browser)
        board = Board(children, browser, folder, seed)
        yield look_at_starters(children, browser, board.port)
        yield board.play()

    with contextlib.closing(Browser(children)) as browser:
        for part in looked():
            try:
                yield from part
            except BrowserError as fault:
                yield str(fault)


if __name__ == "__main__":
    soaking.main("pages", __doc__, soak)
