#!/usr/bin/env python3
"""Measures how much one machine holds: many games at once, each with eight agents that ask at a
steady rate.

    bench/many_games.py crates/tacd/out/tacd --games 100 --pace 500 --rate 2

Each game is a process of `tac serve` of its own; all agents are links of this process. An agent
asks for quotes, and every fourth request is a bid for rooms. The output has the requests, the
median and the 99th percentile of the time from a request to its reply, the memory that the servers
have resident in sum and at most each, the processor time that they used, how late the games ended
after their 54 ticks, and how many of the logs are sound. It takes 54 times the pace and some
seconds.
"""

import asyncio
import os
import resource
import statistics
import subprocess
import sys
import tempfile
import time
from dataclasses import dataclass, field
from pathlib import Path
from typing import List, Tuple

from running import Parser, ProgramError, command, file_of, run, whole

from geesefuton.records.games import TICKS
from geesefuton.processes import Children, free_port

PAGE = os.sysconf("SC_PAGE_SIZE")
MEGA = 1e6


@dataclass
class Server:
    """A served game.

    Attributes:
        process: Its process.
        port: Its port.
        game: Its game file.
        log: Where its log goes.
    """

    process: "subprocess.Popen[bytes]"
    port: int
    game: Path
    log: Path


@dataclass
class Seen:
    """What the agents saw: the seconds of each request, and when the games began and ended."""

    times: List[float] = field(default_factory=list)
    began: float = 0.0
    ended: float = 0.0


def start(tac: str, children: Children, place: Path, number: int, pace: int) -> Server:
    """Starts a game, made from its number."""
    game, log, port = place / f"{number}.game", place / f"{number}.log", free_port()
    game.write_text(run([tac, "make", str(number)]).text)
    with log.open("wb") as out:
        process = children.start([tac, "serve", str(game), str(port), str(pace)], stdout=out,
                                 stdin=subprocess.DEVNULL)
    return Server(process, port, game, log)


async def connected(server: Server) -> Tuple[asyncio.StreamReader, asyncio.StreamWriter]:
    """A link to a server that may still be starting.

    Raises:
        ProgramError: The server has ended.
    """
    while server.process.poll() is None:
        try:
            return await asyncio.open_connection("127.0.0.1", server.port)
        except OSError:
            await asyncio.sleep(0.05)
    raise ProgramError(f"a server ended with exit status {server.process.returncode}")


async def agent(server: Server, seat: int, seconds: float, rate: float, seen: Seen) -> None:
    """Plays one seat: asks at a steady rate until the game is over, and quits."""
    reader, writer = await connected(server)
    writer.write(f"hello seat{seat}\n".encode())
    for _ in range(10):
        if not await reader.readline():
            raise ProgramError("a server sent no whole welcome")
    began = time.monotonic()
    seen.began = max(seen.began, began)
    count = 0
    # Agents do not ask all at the same moment.
    due = began + (server.port * 8 + seat) % 97 / 97 / rate
    while due < began + seconds:
        await asyncio.sleep(max(0.0, due - time.monotonic()))
        good = 8 + (count + seat) % 8
        request = f"quote {good}" if count % 4 else f"bid {good} ((1 {50 + count % 100}))"
        asked = time.monotonic()
        writer.write(f"{request}\n".encode())
        if not await reader.readline():
            raise ProgramError("a server closed a link before the game was over")
        seen.times.append(time.monotonic() - asked)
        count += 1
        due += 1 / rate
    writer.write(b"quit\n")
    await reader.readline()
    seen.ended = max(seen.ended, time.monotonic())
    writer.close()


def resident(process: int) -> int:
    """The bytes of a process that are in memory."""
    return int(Path(f"/proc/{process}/statm").read_text().split()[1]) * PAGE


def spent() -> float:
    """The seconds of a processor that all processes have used that were started here, and whose end
    was seen."""
    used = resource.getrusage(resource.RUSAGE_CHILDREN)
    return used.ru_utime + used.ru_stime


async def play(servers: List[Server], seconds: float, rate: float) -> Tuple[Seen, List[int]]:
    """Plays all games. Gives what agents saw, and the bytes of each server late in the game."""
    seen = Seen()
    agents = asyncio.gather(*(agent(server, seat, seconds, rate, seen)
                              for server in servers for seat in range(8)))
    await asyncio.sleep(0)
    while not seen.times and not agents.done():
        await asyncio.sleep(0.05)
    await asyncio.wait([agents], timeout=0.9 * seconds)
    memory = [resident(server.process.pid) for server in servers if server.process.poll() is None]
    await agents
    return seen, memory


def main() -> int:
    parser = Parser("many_games", __doc__)
    parser.add_argument("tac", help="the file of tac")
    parser.add_argument("--games", type=whole(1, 400), default=100,
                        help="how many games (default: 100)")
    parser.add_argument("--pace", type=whole(1, 60000), default=500,
                        help="milliseconds from tick to tick (default: 500)")
    parser.add_argument("--rate", type=float, default=2.0,
                        help="the requests of an agent in a second (default: 2)")
    given = parser.parse_args()
    tac = file_of(given.tac)
    if not 0 < given.rate <= 1000:
        parser.error("--rate is above 0, and at most 1000")
    seconds = TICKS * given.pace / 1000
    # Each agent is an open file here, and a game needs a few more.
    now, most = resource.getrlimit(resource.RLIMIT_NOFILE)
    due = min(most, 20 * given.games + 200) if most != resource.RLIM_INFINITY else \
        20 * given.games + 200
    resource.setrlimit(resource.RLIMIT_NOFILE, (max(now, due), most))
    with tempfile.TemporaryDirectory() as folder, Children() as children:
        servers = [start(tac, children, Path(folder), number, given.pace)
                   for number in range(given.games)]
        seen, memory = asyncio.run(play(servers, seconds, given.rate))
        before = spent()
        statuses = [server.process.wait(60) for server in servers]
        processor = spent() - before
        over = time.monotonic()
        sound = sum(run([tac, "audit", server.game, server.log], allowed=(0, 8, 9)).text
                    == "sound\n" for server in servers)
    times = sorted(seen.times)
    late = over - seen.began - seconds
    print(f"{given.games} games, {8 * given.games} agents, a tick every {given.pace} ms, "
          f"{given.rate:g} requests a second each")
    print(f"requests {len(times):,}; median {1000 * statistics.median(times):.2f} ms, 99th "
          f"percentile {1000 * times[int(0.99 * len(times))]:.2f} ms, longest "
          f"{1000 * times[-1]:.1f} ms")
    print(f"resident {sum(memory) / MEGA:.0f} MB in sum, {max(memory) / MEGA:.1f} MB at most; "
          f"servers used {processor:.2f} s of a processor, {processor / seconds:.3f} of one")
    print(f"the last server ended {late:.2f} s after its ticks; statuses other than 0: "
          f"{sum(status != 0 for status in statuses)}; sound {sound} of {given.games}")
    return 0 if sound == given.games else 1


if __name__ == "__main__":
    sys.exit(command("many_games", main))
