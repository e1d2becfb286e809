"""Games served to hostile agents over a relay that keeps the bytes of each link at the server's
side."""

import asyncio
import contextlib
import itertools
import random
import subprocess
import time
from pathlib import Path
from typing import Awaitable, List, Tuple

from geesefuton import program
from geesefuton.processes import Children, free_port
from geesefuton.records.games import SEATS, TICKS, read_game
from tests.support.judging import Judge
from tests.support.recording import Relay, Streams
from tests.support.wild_agent import MODES, WildAgent

AFTER = 0.1  # seconds after the last tick until links that are left are half closed
ENDING = 0.2  # seconds until they are reset then
LATE = 0.2  # seconds until another link asks for a seat, before the game
MOST = 600.0  # seconds that a game may take, on a busy machine
STRANGERS = (b"hello nobody\n", b"hello\n", b"x" * 600 + b"\n", b"", b"hello seat3", b"\n",
             b"hello seat5\n", b"HELLO seat1\n", b"\xff\n")
HOSTILE = [mode for mode in MODES if mode != "back"] + ["calm", "pipe"]


async def play_hostile(children: Children, seed: int, folder: Path) -> Tuple[Judge, Relay]:
    """Plays a game with hostile agents. Every third speaks JSON, every second is of version 2.
    Agents ask at random, good and bad, each in a mode; strangers come with other greetings. Gives
    who judges its links, and the relay that has these.

    Raises:
        ProgramError: It did not end as it should.
    """
    dice, game = random.Random(seed), read_game(program.make(seed))
    if seed % 2:
        game = game.with_rooms([dice.randint(1, 8) for _ in range(8)], dice.random() < 0.5)
    file, form = folder / "game", "words" if seed % 3 else "json"
    pace, relay = dice.randint(4, 12), Relay(free_port())
    file.write_text(game.text())
    with (folder / "log").open("wb") as log:
        server = children.start(program.served_words(file, relay.port, pace, form),
                                stdin=subprocess.DEVNULL, stdout=log)
    port = await relay.open()
    coming: List[Awaitable[None]] = [
        WildAgent(("127.0.0.1", port), f"seat{seat}", dice.choice(HOSTILE), form,
                  seed * SEATS + seat, 2 * pace / 1000).play() for seat in range(SEATS)]
    coming += [stranger(port, line) for line in dice.sample(STRANGERS, 2)]
    dice.shuffle(coming)
    guests = [asyncio.ensure_future(each) for each in [*coming, late(port, relay)]]
    try:
        await asyncio.wait_for(ended(relay, server, pace, dice), MOST)
    except asyncio.TimeoutError:
        raise program.ProgramError(f"it took more than {MOST:g} seconds") from None
    finally:
        for guest in guests:
            guest.cancel()
        await asyncio.gather(*guests, return_exceptions=True)
        await relay.close()
        status = children.end(server)
    if status not in (program.OK, program.CLOCK):
        raise program.ended("serve", status, "")
    return Judge(file, (folder / "log").read_bytes(), form), relay


async def stranger(port: int, line: bytes) -> None:
    """A link with another greeting."""
    streams = Streams(*await asyncio.open_connection("127.0.0.1", port))
    with contextlib.suppress(OSError):
        streams.writer.write(line)
        if not line.endswith(b"\n"):
            streams.end()
        await streams.line()
    streams.writer.close()


async def late(port: int, relay: Relay) -> None:
    """Links for seats whose agents have left before they had them: the game waits for these."""
    guests: "List[asyncio.Future[None]]" = []
    for seat in itertools.cycle(range(SEATS)):
        await asyncio.sleep(LATE)
        if relay.began.is_set():
            break
        guests.append(asyncio.ensure_future(stranger(port, f"hello seat{seat}\n".encode())))
    await asyncio.gather(*guests, return_exceptions=True)


async def ended(relay: Relay, server: "subprocess.Popen[bytes]", pace: int, dice: random.Random
                ) -> None:
    """Waits for the last tick, ends the links that are left, and waits for the server."""
    while not relay.began.is_set() and server.poll() is None:
        await asyncio.sleep(0.005)
    deadline = time.monotonic() + TICKS * pace / 1000 + AFTER
    while server.poll() is None and time.monotonic() < deadline:
        await asyncio.sleep(0.005)
    for link in relay.left():
        if link.server and dice.random() < 0.5:
            link.server.end()
    await asyncio.sleep(ENDING if relay.left() else 0)
    while server.poll() is None:
        for link in relay.left():
            if link.server:
                link.server.reset()
        await asyncio.sleep(0.005)
