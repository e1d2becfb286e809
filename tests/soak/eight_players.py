"""Plays all eight seats of a hosted game until tickets are closed: seven each over a link of its
own, and one by hand, as a browser does on the seat's page.

    python3 -m tests.soak.eight_players PORT PAGE SEED FOLDER

Each seat's requests are drawn from the seed. What it sent and was sent is written to SEAT.asked and
SEAT.said in the folder. The page's address is in its file `told`, which the lobby writes. The
script prints a JSON object with the longest time in seconds that a reply took, the times that bids
by hand took, whose page runs at a lower priority, and a list of what went wrong.
"""

import asyncio
import json
import random
import sys
import time
from pathlib import Path
from typing import Any, List

from tests.support.hand import FAULTS, Hand
from tests.support.recording import reach

SEATS, PAUSE = 8, 0.5  # and the seconds that a player waits at most between two requests
BY_HAND = SEATS - 1


class Players:
    """The players of a game, by the words of the script."""

    def __init__(self, port: str, page: str, seed: str, folder: str) -> None:
        self.port, self.page, self.seed, self.folder = int(port), int(page), seed, Path(folder)
        self.longest = 0.0
        self.by_hand: List[float] = []  # seconds that each bid by hand took
        self.wrong: List[str] = []

    async def play_all(self) -> None:
        await asyncio.gather(asyncio.to_thread(self.play_by_hand), *map(self.play, range(BY_HAND)))

    async def play(self, seat: int) -> None:
        dice = random.Random(f"{self.seed} {seat}")
        reader, writer = await reach("127.0.0.1", self.port, 2400, 0.05,
                                     local_addr=(address_of(seat), 0))
        asked, said = f"hello seat{seat}\n".encode(), b""
        writer.write(asked)
        try:
            for _ in range(10):
                said += await reader.readuntil(b"\n")
            line = reply = b""
            while line != b"quote 16\n" or b"closed" not in reply:
                await asyncio.sleep(dice.random() * PAUSE)
                line, begun = _request(dice), time.monotonic()
                writer.write(line)
                reply = await reader.readuntil(b"\n")
                self.longest = max(self.longest, time.monotonic() - begun)
                asked, said = asked + line, said + reply
            writer.write(b"quit\n")
            asked, said = asked + b"quit\n", said + await reader.read()
        except (OSError, asyncio.IncompleteReadError) as fault:
            self.wrong.append(f"seat{seat} lost its link: {fault!r}")
        writer.close()
        (self.folder / f"{seat}.asked").write_bytes(asked)
        (self.folder / f"{seat}.said").write_bytes(said)

    def play_by_hand(self) -> None:
        """Plays the last seat on its page. Whatever befalls the page, it is opened again."""
        dice, page, state = random.Random(f"{self.seed} page"), "", dict[str, Any]()
        hand = Hand(self.page, f"seat{BY_HAND}", address_of(BY_HAND))
        while state.get("phase") != "over":
            told = (self.folder / "told").read_text(errors="replace")
            if "the game is over" in told and (not page or state.get("phase") == "failed"):
                break
            time.sleep(dice.random() * PAUSE)
            try:
                page = page or hand.ask("open", page="")["page"]
                begun = time.monotonic()
                if state.get("phase") == "failed":
                    hand.ask("again", page=page)
                elif state.get("phase") == "running":
                    hand.ask("bid", page=page, good=dice.randrange(28),
                             points=[[1, dice.randint(1, 400)]])
                    self.by_hand.append(round(time.monotonic() - begun, 2))
                state = hand.ask("state", page=page, after=state.get("version"))
            except (KeyError, *FAULTS):
                page = ""
        if state.get("phase") != "over":
            self.wrong.append(f"by hand: {state.get('phase')} {state.get('fault')}")


def address_of(seat: int) -> str:
    """A player's address: four have the same, as behind a router."""
    return f"127.1.0.{2 + seat // 4}"


def _request(dice: random.Random) -> bytes:
    good = dice.randrange(28)
    return dice.choice([f"bid {good} ((1 {dice.randint(1, 400)}))", f"own {good}", "cash",
                        "quote 16", "quote 16", f"quote {good}"]).encode() + b"\n"


def main() -> None:
    players = Players(*sys.argv[1:])
    asyncio.run(players.play_all())
    print(json.dumps({"longest": players.longest, "by hand": players.by_hand,
                      "wrong": players.wrong}))


if __name__ == "__main__":
    main()
