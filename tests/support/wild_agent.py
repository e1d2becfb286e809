"""An agent for tests: it asks at random, good and bad, and may note each line with its reply.

    python3 -m tests.support.wild_agent HOST PORT WORD --mode MODE --form words --out FILE --seed N

calm asks one line at a time, pipe several, and spend more of an auction and its cash than it may;
quits goes on after `quit`; crash ends by a reset, vanish without reading, and half in the middle of
a line; gone leaves before the welcome, mostly; hang stops in the middle, flood sends many lines at
once and reads late, early sends lines without waiting for replies, and deaf never reads; garbage
sends only lines that are refused; back loses its link again and again, in several ways, and comes
back. It notes `wrong` if a reply is none of its own line's, or if the welcome changes.
"""

import asyncio
import contextlib
import json
import random
import sys
from typing import Any, Dict, List, Optional, TextIO, Tuple

from geesefuton.arguments import Parser, seconds, whole
from geesefuton.processes import command
from geesefuton.records.games import GOODS
from tests.support.recording import Streams, reach

MODES = ("calm", "pipe", "quits", "crash", "vanish", "gone", "hang", "flood", "deaf", "half",
         "garbage", "spend", "early", "back")
BAD = {
    "words": ["bid 3 ((01 5))", "bid 28 ((1 1))", "own 05", "", "x" * 600, "bid 4 ()", "sell 3",
              "own 1\r", "q\xfcit", '"\\', "bid 5  ((1 1))"],
    "json": ['{"do":"bid","auction":3,"points":[]}', '{"do":"own","auction":28}', "{", "",
             "x" * 600, '{"do":"own","auction":1.0}', "[1]", '{"do":"sell"}', "\x00\xff",
             '{"do":"bid","auction":4,"points":[[1,5,6]]}'],
}


class Gone(Exception):
    """The link has ended, or has no seat."""


class WildAgent:
    """An agent with its link, its dice and its notes.

    Args:
        address: Where it connects.
        word: The word of its seat.
        mode: What it does, of MODES.
        form: `words` or `json`.
        seed: By which it draws.
        pause: The seconds that it waits at most now and then.
        goods: For which it asks.
        out: Where it notes what it was answered.
    """

    def __init__(self, address: Tuple[str, int], word: str, mode: str, form: str, seed: int,
                 pause: float, goods: Optional[List[int]] = None, out: Optional[TextIO] = None
                 ) -> None:
        self.address, self.word, self.mode, self.form = address, word, mode, form
        self.dice, self.longest, self.out = random.Random(seed), pause, out
        self.goods = goods or list(GOODS)
        self.agent, self.first = 0, b""  # its number and its welcome
        self.streams: Streams

    async def play(self) -> None:
        """Plays until its link has ended."""
        with contextlib.suppress(Gone, OSError):
            if not await self.connect():
                return
            try:
                await getattr(self, self.mode)()
            finally:
                self.streams.writer.close()

    async def connect(self, tries: int = 400) -> bool:
        """Takes the seat. Whether it was given."""
        self.streams = await reach(*self.address, tries, 0.05)
        await self.send([f"hello {self.word}"])
        if self.mode == "gone":
            return True
        welcome = await self.streams.line()
        if not welcome.startswith(b"welcome "):
            self.streams.writer.close()
            return False
        self.agent = int(welcome.split()[1])
        for _ in range(9):
            welcome += await self.line()
        if self.first not in (b"", welcome):
            self.note("wrong: the welcome has changed")
        self.first = welcome
        return True

    def note(self, line: str) -> None:
        """Notes a line."""
        if self.out is not None:
            self.out.write(line + "\n")

    # What it asks.

    def points(self) -> List[Tuple[int, int]]:
        """The points of a bid, some of them refused."""
        dice = self.dice
        return [(dice.choice([1, 2, 3, -1, -2]) if dice.random() < 0.5 else dice.randint(1, 4),
                 dice.randint(1, 700) if dice.random() < 0.95 else dice.choice([0, 10001]))
                for _ in range(dice.choice([1, 1, 1, 2, 3]))]

    def request(self) -> str:
        """A request line."""
        good, number = self.dice.choice(self.goods), self.dice.random()
        if number >= 0.92 or self.mode == "garbage":
            return self.dice.choice(BAD[self.form])
        keyword = next(word for word, until in (("bid", 0.45), ("withdraw", 0.55), ("own", 0.7),
                                                ("quote", 0.88), ("cash", 1)) if number < until)
        return self.text(keyword, good)

    def requests(self, most: int, least: int = 0) -> List[str]:
        """Some request lines."""
        return [self.request() for _ in range(self.dice.randint(least, most))]

    def text(self, keyword: str, good: int = 0) -> str:
        """A request line of a keyword."""
        if self.form == "json":
            asked: Dict[str, Any] = {"do": keyword}
            if keyword not in ("cash", "quit"):
                asked["auction"] = good
            if keyword == "bid":
                asked["points"] = self.points()
            is_odd = keyword not in ("quit", "quote") and self.dice.random() < 0.1
            return json.dumps(asked) + "\r" * is_odd
        points = " ".join(f"({units} {price})" for units, price in self.points())
        more = {"cash": "", "quit": "", "bid": f" {good} ({points})"}
        return keyword + more.get(keyword, f" {good}")

    # How it asks.

    async def line(self) -> bytes:
        """The next line."""
        line = await self.streams.line()
        if not line.endswith(b"\n"):
            raise Gone
        return line

    async def send(self, lines: List[str]) -> None:
        """Sends lines, at once or in pieces."""
        data = b"".join(line.encode("latin-1") + b"\n" for line in lines)
        cut = self.dice.randint(0, len(data)) if self.dice.random() < 0.2 else len(data)
        for piece in (data[:cut], data[cut:]):
            self.streams.writer.write(piece)
            await self.streams.writer.drain()
            if cut < len(data):
                await asyncio.sleep(0)

    async def exchange(self, lines: List[str]) -> None:
        """Sends lines, and notes their replies."""
        await self.send(lines)
        for line in lines:
            reply = (await self.line())[:-1].decode("latin-1")
            self.note(json.dumps([self.agent, line, reply]))

    async def is_over(self) -> bool:
        """Whether the tickets are closed, so that the game is over."""
        await self.send([self.text("quote", 16)])
        line = await self.line()
        if b"quote" not in line:
            self.note(f"wrong: {line!r} answers a quote")
        return b"closed" in line or b'"open":false' in line

    async def pause(self) -> None:
        """Waits a moment."""
        await asyncio.sleep(self.longest * self.dice.random())

    async def stay(self) -> None:
        """Waits until the link is ended."""
        while await self.streams.reader.read(1 << 16):
            pass

    async def some(self) -> None:
        """Asks for a while."""
        for _ in range(self.dice.randint(3, 30)):
            await self.exchange(self.requests(4, 1))
            await self.pause()

    async def quit(self) -> None:
        """Ends the session as it should be."""
        await self.send([self.text("quit")])
        await self.line()

    # The modes.

    async def calm(self, most: int = 1) -> None:
        while not await self.is_over():
            await self.exchange(self.requests(most, 1))
            await self.pause()
        await self.exchange(self.requests(5))
        await self.quit()

    async def pipe(self) -> None:
        await self.calm(12)

    async def quits(self) -> None:
        await self.some()
        await self.send([self.text("quit"), *self.requests(20)])
        await self.stay()

    async def crash(self) -> None:
        await self.vanish()
        self.streams.reset()

    async def vanish(self) -> None:
        await self.some()
        await self.send(self.requests(60))

    async def gone(self) -> None:
        await self.send(self.requests(3))
        await self.pause()
        if self.dice.random() < 0.5:
            self.streams.reset()

    async def hang(self) -> None:
        await self.vanish()
        await self.stay()

    async def flood(self) -> None:
        for _ in range(self.dice.randint(0, 40)):
            await self.exchange(self.requests(200))
            await self.pause()
        for _ in range(self.dice.randint(1, 5)):
            await self.send(self.requests(200))
        self.streams.end()
        await self.stay()

    async def deaf(self) -> None:
        while True:
            await self.send(self.requests(100, 1))

    async def half(self) -> None:
        await self.some()
        await self.send(self.requests(5))
        self.streams.writer.write(self.request().encode("latin-1")[:9])
        self.streams.end()
        await self.stay()

    async def garbage(self) -> None:
        await self.some()
        await self.stay()

    async def spend(self) -> None:
        good = self.dice.choice(self.goods)
        for keyword in ("own", "cash"):
            for _ in range(3):
                await self.exchange([self.text(keyword, good).rstrip("\r") for _ in range(350)])
        await self.calm()

    async def early(self) -> None:
        for _ in range(self.dice.randint(1, 30)):
            await self.send(self.requests(6))
            await self.pause()
        await self.stay()

    async def back(self) -> None:
        kept = []
        while True:
            for _ in range(self.dice.randint(1, 10)):
                if await self.is_over():
                    return await self.quit()
                await self.exchange(self.requests(4, 1))
                await self.pause()
            await self.send(self.requests(20))
            way = self.dice.randrange(4)
            if way == 0:
                self.streams.reset()
            elif way == 1:
                kept.append(self.streams)  # it stays open, and says nothing
            else:
                self.streams.writer.close()
            await asyncio.sleep(self.longest * self.dice.choice([0, 1, 10]))
            while not await self.connect(20):  # `taken` until the old link has been silent long
                await asyncio.sleep(0.1)


def main() -> int:
    parser = Parser("wild_agent", __doc__ or "")
    parser.add_argument("host")
    parser.add_argument("port", type=whole(1, 65535))
    parser.add_argument("word")
    parser.add_argument("--mode", default="calm", choices=MODES)
    parser.add_argument("--form", default="words", choices=["words", "json"])
    parser.add_argument("--out", required=True, help="write the notes to this file")
    parser.add_argument("--seed", type=whole(0), default=0)
    parser.add_argument("--pause", type=seconds, default=0.05, metavar="SECONDS")
    parser.add_argument("--goods", default=",".join(map(str, GOODS)))
    given = parser.parse_args()
    with open(given.out, "w", buffering=1, encoding="ascii") as out:
        agent = WildAgent((given.host, given.port), given.word, given.mode, given.form, given.seed,
                          given.pause, list(map(int, given.goods.split(","))), out)
        asyncio.run(agent.play())
    return 0


if __name__ == "__main__":
    sys.exit(command("wild_agent", main))
