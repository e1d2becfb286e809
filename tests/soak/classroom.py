"""Hosts a game for a hostile classroom: eight clients play, one of them by hand, and all others try
to do harm.

    python3 -m tests.soak.classroom SEED

A seed determines a classroom of forty clients. Each of the 32 that do not play does one thing again
and again: it opens links and says nothing, sends half a line or half a head, a line without an end,
words that no seat has, or the word of a seat that is taken; it resets its links, reads nothing,
holds many event streams, or opens the pages for playing by hand. Some who guess words sit behind
the same router as players. Besides, one thing befalls the host: the journal's disk is full, the
pages are killed, no file can be opened or no process started for a while, the clock is set back, or
the terminal is closed or stopped.

The game has to end, with a sound log that is right about each player's record. No player may wait
for a reply for more than two ticks, and the host's processes may have 300 MB of memory in all. It
takes half a minute, and needs Linux.
"""

import asyncio
import json
import logging
import os
import random
import resource
import signal
import subprocess
import sys
from pathlib import Path
from typing import Any, Callable, Dict, Iterator, List, Optional, Tuple

from geesefuton.processes import Children
from tests.support import soaking
from tests.support.recording import Streams, reach
from tests.support.soaking import Hosted
from tests.support.trying import TOP, descendants, of_process

LOBBY = (sys.executable, Path(__file__).with_name("troubled_lobby.py"))
PLAYERS = [sys.executable, "-m", "tests.soak.eight_players"]
HOSTILE, SEATS = 32, 8
PACE = 500  # milliseconds
START = 8  # seconds until the game begins
MOST_TICKS = 2  # that a player may wait for a reply
MOST_MEMORY = 300  # megabytes of the host's processes
LONGEST = 150.0  # seconds for a game
FILES = 512  # that a process of the host may have open
MOST_HELD = 60  # links that a hostile client holds
BEFALLS = ("nothing", "full disk", "pages killed", "no files", "HUP", "TSTP", "clock", "processes")
GET = "GET %s HTTP/1.1\r\nHost: a\r\n\r\n"
PLAY = "POST /play HTTP/1.1\r\nHost: a\r\nContent-Length: 5\r\n\r\nseat%d"


class Hostile:
    """A client that does harm.

    Args:
        ports: Of the host, by what is served there.
        address: From which its links come.
        dice: What it draws from.
        told: What the host has told so far.
    """

    def __init__(self, ports: Dict[str, int], address: str, dice: random.Random,
                 told: Callable[[], str]) -> None:
        self._ports, self._address, self._dice, self._told = ports, address, dice, told
        self._held: List[asyncio.StreamWriter] = []
        self.seats = 0  # that were given to it

    async def harm(self, kind: str) -> None:
        """Does one kind of harm again and again, until it is cancelled."""
        try:
            while True:
                try:
                    await asyncio.wait_for(self._hold(*SENT[kind]) if kind in SENT else
                                           getattr(self, kind)(), 20)
                except (OSError, asyncio.TimeoutError, asyncio.LimitOverrunError, ValueError):
                    pass
                while len(self._held) > MOST_HELD:
                    self._held.pop(0).transport.abort()
                await asyncio.sleep(0.02 + 0.2 * self._dice.random())
        finally:
            for writer in self._held:
                writer.transport.abort()

    async def _linked(self, *ports: str) -> Streams:
        port = self._ports[self._dice.choice(ports or tuple(self._ports))]
        return await reach("127.0.0.1", port, 1, local_addr=(self._address, 0))

    async def _send(self, text: str, *ports: str) -> Streams:
        """Sends a text over a new link, which stays open."""
        streams = await self._linked(*ports)
        streams.writer.write(text.encode("latin-1"))
        self._held.append(streams.writer)
        return streams

    async def _hold(self, count: int, ports: List[str], texts: List[str]) -> None:
        for _ in range(count):
            await self._send(self._dice.choice(texts), *ports)

    async def flood(self) -> None:
        """Opens many links, and closes them at once."""
        for _ in range(30):
            (await self._linked()).writer.close()

    async def half(self) -> None:
        """Sends half a greeting or half a head, a byte now and then."""
        port = self._dice.choice(list(self._ports))
        await self._send("", port)
        for byte in b"hello sea" if port == "agents" else b"GET / HTTP/1.1\r\nHost: a":
            self._held[-1].write(bytes([byte]))
            await asyncio.sleep(0.2 * self._dice.random())

    async def endless(self) -> None:
        """Sends a line that does not end."""
        await self._send("")
        for _ in range(200):
            if self._held[-1].is_closing():
                break
            self._held[-1].write(b"a" * 4096)
            await self._held[-1].drain()

    async def reset(self) -> None:
        """Ends a link by a reset, with something on its way."""
        streams = await self._send(self._dice.choice(["hello seat0\n", "GET /", "hello sea"]))
        streams.reset()

    async def guess(self) -> None:
        """Guesses words and tokens, behind the router of players once these have their seats."""
        if self._address.startswith("127.1.") and "begins" not in self._told():
            return
        for _ in range(20):
            word = "".join(self._dice.choice("abcdefgh") for _ in range(5))
            await self._send(f"hello {word}\n", "agents")
            await self._send(GET % f"/{word}", "page")

    async def take(self) -> None:
        """Wants a seat that is taken, by its right word, once somebody plays it, and not by hand: a
        page that ends frees its seat."""
        if "begins" in self._told():
            streams = await self._send(f"hello seat{self._dice.randrange(SEATS - 1)}\n", "agents")
            self.seats += (await streams.line()).startswith(b"welcome")

    async def streams(self) -> None:
        """Holds fifty event streams."""
        while len(self._held) < 50:
            await self._send(GET % "/events", "page")


# What is sent over how many links, which stay open: nothing; what is no greeting; for a page, of
# which nothing is read; and for the pages for playing by hand of seats that agents have.
SENT: Dict[str, Tuple[int, List[str], List[str]]] = {
    "silent": (5, [], [""]),
    "refused": (20, ["agents"], ["x\n", "hello\n", "hello nobody\n", "\xff\n"]),
    "deaf": (10, ["page"], [GET % path for path in ("/", "/events", "/join")]),
    "pages": (1, ["page"], [PLAY % seat for seat in range(SEATS)])}
KINDS = [*SENT, *(name for name in vars(Hostile) if name[0] != "_" and name != "harm")]


class Classroom(Hosted):
    """A game and its clients.

    Args:
        children: By which all is started.
        folder: For its files.
        seed: What determines who does what, and what befalls the host.
    """

    def __init__(self, children: Children, folder: Path, seed: int) -> None:
        super().__init__(children, folder, seed)
        self._seed, self._dice = seed, random.Random(seed)
        self._befalls = BEFALLS[seed % len(BEFALLS)]
        self._kinds = sorted(self._dice.choice(KINDS) for _ in range(HOSTILE))
        self._memory = 0  # bytes that the host's processes had at most

    async def play(self) -> List[str]:
        """Hosts the game, and gives what went wrong."""
        ports, wrong = {"agents": self.port, "page": self.page}, list[str]()
        with (self.folder / "played").open("wb") as played:
            host = self.start(PACE, "--start", START, "--after", 15, "--page", self.page,
                              lobby=LOBBY, stdin=subprocess.PIPE, cwd=self.folder,
                              env={**os.environ, "AGENT_RECORD": str(self.folder)})
            resource.prlimit(host.pid, resource.RLIMIT_NOFILE, (FILES, FILES))
            players = self.children.start(
                [*PLAYERS, *map(str, ports.values()), str(self._seed), str(self.folder)],
                stdout=played, cwd=TOP)
            hostile = [Hostile(ports, address_of(number, kind),
                               random.Random(f"{self._seed} {number}"), self.told)
                       for number, kind in enumerate(self._kinds)]
            tasks = [asyncio.ensure_future(each.harm(kind))
                     for each, kind in zip(hostile, self._kinds)]
            tasks += [asyncio.ensure_future(self._measure(host.pid)),
                      asyncio.ensure_future(self._befall(host))]
            status = await asyncio.get_running_loop().run_in_executor(None, _ended, host, LONGEST)
            left = set(tasks)
            while left:  # `wait_for` may miss that it is cancelled
                for task in left:
                    task.cancel()
                _, left = await asyncio.wait(left, timeout=1)
            for fault in await asyncio.gather(*tasks, return_exceptions=True):
                if isinstance(fault, Exception):
                    wrong.append(f"a client: {fault!r}")
            seats = sum(each.seats for each in hostile)
            if seats:
                wrong.append(f"{seats} seats were given to others")
            if status not in (0, 6):
                return [*wrong, f"status {status}: {self.told().strip().splitlines()[-1:]}"]
            if _ended(players, 30) != 0:
                return [*wrong, "the players did not end"]
        return [*wrong, *self._judged(json.loads((self.folder / "played").read_text()))]

    async def _befall(self, host: "subprocess.Popen[bytes]") -> None:
        """Lets one thing befall the host during the game; it cannot start the server, either."""
        file = self.folder / self._befalls
        due = "waiting at port" if self._befalls == "processes" else "begins"
        while due not in self.told():
            await asyncio.sleep(0.1)
        if self._befalls == "processes":
            file.touch()
            await asyncio.sleep(START + 4)
            file.unlink()
        await asyncio.sleep(self._dice.random() * 40 * PACE / 1000)
        if self._befalls == "full disk":
            resource.prlimit(host.pid, resource.RLIMIT_FSIZE, (10_000, -1))
            await asyncio.sleep(3)
            resource.prlimit(host.pid, resource.RLIMIT_FSIZE, (-1, -1))
        elif self._befalls == "pages killed":
            for process in descendants(host.pid):
                if b"\0geesefuton." in of_process(process, "cmdline"):  # and not the server
                    os.kill(process, signal.SIGKILL)
        elif self._befalls == "no files":
            resource.prlimit(host.pid, resource.RLIMIT_NOFILE, (3, FILES))
            await asyncio.sleep(5)
            resource.prlimit(host.pid, resource.RLIMIT_NOFILE, (FILES, FILES))
        elif self._befalls in ("clock", "processes"):
            file.touch()
            await asyncio.sleep(3)
            file.unlink()
        elif self._befalls in ("HUP", "TSTP"):
            host.send_signal(signal.Signals[f"SIG{self._befalls}"])

    async def _measure(self, host: int) -> None:
        """Notes the most memory that the host's processes had."""
        while True:
            pages = [of_process(each, "statm").split() for each in [host, *descendants(host)]]
            self._memory = max(self._memory, sum(int(each[1]) * 4096 for each in pages if each))
            await asyncio.sleep(0.3)

    def _judged(self, played: Dict[str, Any]) -> Iterator[str]:
        """What is wrong with how the game ended, by what its players tell."""
        print(json.dumps({"befalls": self._befalls, "harm": sorted(set(self._kinds)),
                          "longest wait": round(played["longest"], 2), "bids by hand":
                          len(played["by hand"]), "longest": max(played["by hand"], default=None),
                          "megabytes": self._memory >> 20}), flush=True)
        yield from played["wrong"]
        yield from self.unsound()
        names = [str(seat) for seat in range(SEATS - 1)]
        if len(list(self.folder.glob("seat7*.asked"))) == 1:  # its page was not started again
            names.append("seat7")
        for seat, name in enumerate(names):
            yield from self.not_whole(seat, *(self.folder / f"{name}.{side}"
                                              for side in ("asked", "said")))
        if played["longest"] > MOST_TICKS * PACE / 1000:
            yield f"a player waited {played['longest']:.2f} s"
        if self._memory > MOST_MEMORY << 20:
            yield f"{self._memory >> 20} MB of memory"


def address_of(number: int, kind: str) -> str:
    """The address of a hostile client. Every other one that guesses has that of players."""
    beside = kind == "guess" and number % 2
    return f"127.1.0.{2 + number // 2 % 2}" if beside else f"127.0.{1 + number % 9}.{2 + number}"


def _ended(child: "subprocess.Popen[bytes]", most: float) -> Optional[int]:
    """The exit status of a process; None if it takes longer."""
    try:
        return child.wait(most)
    except subprocess.TimeoutExpired:
        return None


def soak(seed: int, folder: Path, children: Children) -> Iterator[str]:
    logging.getLogger("asyncio").setLevel(logging.ERROR)  # it tells of links that have ended
    yield from asyncio.run(Classroom(children, folder, seed).play())


if __name__ == "__main__":
    soaking.main("classroom", __doc__, soak)
