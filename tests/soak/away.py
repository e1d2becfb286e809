"""A hosted game in which an agent's machine is cut off three times; its joined records are vouched
for.

    python3 -m tests.soak.away SEED

The agent plays over `geesefuton.link`, with AGENT_RECORD. With an even seed it reaches the lobby by
a relay that ends its link, resets it, or keeps it open and passes nothing on any more, with
requests on their way. With an odd one it plays in a network namespace of its own, whose cable is
pulled and put back, where this is run by root. After the game the lobby has to say `vouched 8 of
8`, and `vouch` to vouch for the agent's records by the journal, and by what is published of
it; if a reply of one record is changed, it has to name the line. It takes some 25 seconds.
"""

import asyncio
import contextlib
import os
import random
import re
import subprocess
from pathlib import Path
from typing import AsyncIterator, Awaitable, Callable, Iterator, List, Tuple

from geesefuton import program
from geesefuton.processes import Children
from tests.package.helpers import completed
from tests.support import soaking
from tests.support.recording import KeptLink, Relay
from tests.support.soaking import Hosted, example
from tests.support.trying import COMMAND, MOST

PACE = 300  # milliseconds from tick to tick
TIMES = 3  # that the machine goes away
WAYS = ("ended", "reset", "silent")
GAPS = (1.5, 2.5)  # seconds between two of them
PULLED = (1.5, 2.0)  # seconds that a cable is out; an agent waits one for a reply


def cut(link: KeptLink, way: str) -> None:
    for each in filter(None, (link.agent, link.server)):
        if way == "ended":
            each.writer.close()
        elif way == "reset":
            each.reset()
        else:
            each.writer.transport.pause_reading()  # type: ignore[attr-defined]


class Away(Hosted):
    """A hosted game of a seed, in which the first agent goes away."""

    def __init__(self, seed: int, folder: Path, children: Children) -> None:
        super().__init__(children, folder, seed)
        self.dice, self.mine = random.Random(seed), folder / "mine"

    def enter(self, seat: int, host: str, port: int, *before: str) -> None:
        """Starts the agent of a seat, which keeps its record."""
        record = self.mine if seat == 0 else self.folder / "others"
        self.join(seat, [*before, *example("planner")], 0.05, host=host, port=port,
                  env={**os.environ, "AGENT_RECORD": str(record), "AGENT_LIMIT": "1"})

    async def play(self, reached: Callable[[], Awaitable[None]]) -> None:
        """Plays the game; `reached` lets the first agent join and go away.

        Raises:
            program.ProgramError: The lobby did not end as it should.
        """
        lobby = self.start(PACE, "--start", 3, "--after", 1, "--silence", 0.5)
        for seat in (1, 2):
            self.enter(seat, "127.0.0.1", self.port)
        away = asyncio.ensure_future(reached())
        status = await asyncio.get_running_loop().run_in_executor(None, lobby.wait, MOST)
        away.cancel()
        await asyncio.gather(away, return_exceptions=True)
        if status not in (program.OK, program.CLOCK):
            raise program.ProgramError(f"the lobby ended with exit status {status}")

    async def by_relay(self) -> None:
        """The first agent plays over a relay that cuts its links."""
        relay, count = Relay(self.port), 0
        self.enter(0, "127.0.0.1", await relay.open())
        try:
            async for _ in self.times():
                way = self.dice.choice(WAYS)
                for link in relay.links[count:]:
                    cut(link, way)
                count = len(relay.links)
        finally:
            await relay.close()

    async def by_namespace(self) -> None:
        """The first agent plays in a namespace whose cable is pulled."""
        with namespace() as (name, cable, address):
            self.enter(0, address, self.port, "ip", "netns", "exec", name)
            async for _ in self.times():
                ip(f"link set {cable} down")
                await asyncio.sleep(self.dice.uniform(*PULLED))
                ip(f"link set {cable} up")

    async def times(self) -> AsyncIterator[None]:
        """The times at which the agent goes away; after the last one the game goes on to its
        end."""
        while "the game begins" not in self.told():
            await asyncio.sleep(0.02)
        for _ in range(TIMES):
            await asyncio.sleep(self.dice.uniform(*GAPS))
            yield
        await asyncio.sleep(MOST)

    def vouch(self, *words: object) -> "subprocess.CompletedProcess[str]":
        return completed(*COMMAND, "vouch", self.file, self.log, *words)

    def wrongs(self) -> List[str]:
        published, wrongs = self.folder / "published", []
        told = [line for line in self.told().splitlines() if "the game is over" in line]
        if len(told) != 1 or "; vouched 8 of 8" not in told[0]:
            wrongs.append(f"the lobby says {told}")
        ways = [self.vouch("--journal", self.journal, "--publish", published)]
        ways += [self.vouch(self.mine, way, where) for way, where in
                 (("--journal", self.journal), ("--published", published))]
        if any(done.returncode for done in ways):
            wrongs += [(done.stdout + done.stderr).replace("\n", " | ") for done in ways]
        elif not re.match(r"seat0: vouched 0 \w+ [0-9 ]+, [0-9]+ records\n", ways[1].stdout):
            wrongs.append(f"the records are {sorted(file.name for file in self.mine.iterdir())}")
        return wrongs or self.changed(published)

    def changed(self, published: Path) -> List[str]:
        """What is wrong once a reply of the second record is changed."""
        said = self.mine / "seat0.2.said"
        lines = said.read_bytes().split(b"\n")
        number = self.dice.randrange(10, len(lines) - 1) if len(lines) > 11 else 9
        lines[number] = b"@" + lines[number]
        said.write_bytes(b"\n".join(lines))
        done = self.vouch(self.mine, "--published", published)
        where = f"seat0.2, line {number - 9}" if number > 9 else "seat0.2, welcome"
        return [] if done.returncode and where in done.stdout else [
            f"a changed reply was told as {done.stdout!r}, not at {where}"]


def ip(words: str) -> None:
    subprocess.run(["ip", *words.split()], check=True)


@contextlib.contextmanager
def namespace() -> Iterator[Tuple[str, str, str]]:
    """A network namespace with a cable to this machine: its name, that of the cable's end here, and
    this machine's address on it."""
    name, cable = f"away{os.getpid()}", f"aw{os.getpid()}"
    net = f"10.213.{os.getpid() % 250}"
    ip(f"netns add {name}")
    try:
        for words in (f"link add {cable} type veth peer name eth0 netns {name}",
                      f"addr add {net}.1/24 dev {cable}", f"link set {cable} up",
                      f"-n {name} addr add {net}.2/24 dev eth0", f"-n {name} link set eth0 up",
                      f"-n {name} link set lo up"):
            ip(words)
        yield name, cable, f"{net}.1"
    finally:
        subprocess.run(["ip", "netns", "del", name], check=False)


def soak(seed: int, folder: Path, children: Children) -> Iterator[str]:
    game, is_root = Away(seed, folder, children), os.geteuid() == 0
    if not is_root:
        print("left out: a machine whose cable is pulled: this needs root")
    try:
        asyncio.run(game.play(game.by_namespace if seed % 2 and is_root else game.by_relay))
    except program.ProgramError as fault:
        yield f"{fault}: {game.told().splitlines()[-2:]}"
        return
    yield from game.wrongs()


if __name__ == "__main__":
    soaking.main("away", __doc__, soak)
