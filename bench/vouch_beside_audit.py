#!/usr/bin/env python3
"""Measures the time and the memory of `tac vouch`, beside those of `tac audit` of the same log.

    taskset -c 0 bench/vouch_beside_audit.py crates/tacd/out/tacd

First a class's game: 10,000 lines of eight agents that bid, ask for quotes, own and cash, and each
agent's link. Then the greatest files. A log of nearly 67,108,864 bytes: eight agents make all bids
that they may, of 16 points each; all tickets are traded, and as many seats as fit; and they read
their cash as often as they may. A link whose agent sent 65,536 lines in 67,108,864 bytes: its bids,
its readings, and lines that are too long; or quotes in their place, so that all boards are printed.
And what such a link was sent, filled up to 67,108,864 bytes with lines that no reply is.

The games are played by scripts, and their logs get the head of a served one. Each command runs
--runs times; the output has the least and the greatest of its processor times, user and system, and
of its wall times, in seconds, and the greatest memory that it had resident, in MB.
"""

import os
import random
import subprocess
import sys
import tempfile
import time
from concurrent.futures import ProcessPoolExecutor
from pathlib import Path
from typing import Iterator, List, NamedTuple, Sequence, Tuple

from running import Parser, ProgramError, Word, command, file_of, run, whole

sys.path.insert(0, str(Path(__file__).resolve().parent.parent))

from tests.support.made_records import served, text_of  # noqa: E402

from geesefuton.records.games import FLIGHTS, HOTELS, TICKETS, read_game, welcome  # noqa: E402

MOST = 67_108_864  # bytes of a log, and of a file of a link
BIDS = 1024  # of each agent in each auction, and as many readings of cash
LINES = 65_536  # of a session
CLASS = 10_000  # lines of a class's game


class Link(NamedTuple):
    """The bytes of a link."""

    asked: bytes
    said: bytes


class Run(NamedTuple):
    """A run: what it wrote, its processor and wall time in seconds, and its memory in MB."""

    text: str
    processor: float
    wall: float
    memory: float


def measured(words: Sequence[Word]) -> Run:
    """Runs a command, and measures it.

    Raises:
        ProgramError: It ended otherwise than with a judgement.
    """
    begun = time.monotonic()
    child = subprocess.Popen([str(word) for word in words], stdin=subprocess.DEVNULL,
                             stdout=subprocess.PIPE)
    assert child.stdout is not None
    with child.stdout as out:
        text = out.read().decode("ascii", "replace").strip()
    _, status, used = os.wait4(child.pid, 0)
    child.returncode = os.waitstatus_to_exitcode(status)
    if child.returncode not in (0, 9):
        raise ProgramError(f"it ended with exit status {child.returncode}: {text[:60]}")
    return Run(text, used.ru_utime + used.ru_stime, time.monotonic() - begun,
               used.ru_maxrss / 1000)


def show(pool: ProcessPoolExecutor, what: str, words: Sequence[Word], runs: int) -> None:
    """Runs a command several times, and prints its figures. A process of the pool starts it: what
    that one had resident counts as the command's, so it has to be small."""
    each = [pool.submit(measured, words).result() for _ in range(runs)]
    spent, wall = [one.processor for one in each], [one.wall for one in each]
    print(f"{what:34} processor {min(spent):6.3f} to {max(spent):6.3f}  wall {min(wall):6.3f} to "
          f"{max(wall):6.3f}  {max(one.memory for one in each):4.0f} MB  {each[0].text[:60]}",
          flush=True)


class Played:
    """A game by a script, with the head of a served one.

    Attributes:
        game: The game file.
        log: The log.
        said: The lines that each agent was sent, behind its welcome.
    """

    def __init__(self, tac: str, place: Path, lines: Iterator[str]) -> None:
        self.game, self.log, script = place / "game", place / "log", place / "script"
        self.game.write_text(run([tac, "make", "42"]).text)
        with script.open("w") as out:
            out.writelines(lines)
        text = run([tac, "play", self.game, script]).text
        script.unlink()
        start = text.index("taclog 1\n")
        self.log.write_text(served(text[start:], ["end"] * 8))
        self.said: List[List[str]] = [[] for _ in range(8)]
        for line in text[:start].splitlines():
            self.said[int(line[0])].append(line[2:])

    def link(self, agent: int, asked: Sequence[str], said: Sequence[str]) -> Link:
        """The bytes of an agent's link."""
        game = read_game(self.game.read_text())
        return Link(text_of([f"hello {game.words[agent]}", *asked]),
                    welcome(game.text(), agent) + text_of(said))


def class_lines() -> List[str]:
    """The script of a class's game, ticks among its lines."""
    dice, lines = random.Random(7), []
    for number in range(CLASS):
        good = dice.randrange(28)
        word = dice.choice(["bid", "bid", "quote", "quote", "own", "cash"])
        sign = dice.choice([1, -1]) if good in TICKETS else 1
        bid = f" (({sign} {dice.randint(1, 450)}) ({sign} {dice.randint(1, 450)}))"
        text = "cash" if word == "cash" else f"{word} {good}{bid * (word == 'bid')}"
        lines.append(f"{dice.randrange(8)} {text}\n")
        if number % (CLASS // 54) == 0 and number:
            lines.append("tick\n")
    return lines


def bid_of(agent: int, good: int, sold: int) -> str:
    """A bid of 16 points; seats are bought of so many flights."""
    sign, price = "", 10_000
    if good in FLIGHTS and good >= sold:
        price = 99  # nobody sells at that
    if good in TICKETS and agent % 2 == 0:
        sign = "-"
    return f"bid {good} ({' '.join([f'({sign}1 {price})'] * 16)})"


def greatest_lines(sold: int, has_quotes: bool) -> Iterator[str]:
    """The script of all bids and readings; with quotes of agent 0 among them."""
    quotes = LINES - 28 * BIDS - BIDS
    for number in range(BIDS):
        for good in (*HOTELS, *TICKETS, *FLIGHTS):
            for agent in range(8):
                yield f"{agent} {bid_of(agent, good, sold)}\n"
        for agent in range(8):
            yield f"{agent} cash\n"
        if has_quotes:
            for count in range(quotes * number // BIDS, quotes * (number + 1) // BIDS):
                yield f"0 quote {count % 28}\n"


def own_lines(lines: Iterator[str]) -> List[str]:
    """The lines of agent 0 in a script."""
    return [line[2:-1] for line in lines if line.startswith("0 ")]


def filled(link: Link) -> Link:
    """The link with lines that are too long, as many and as long as it may have, from the front on
    between its own."""
    asked, said = link.asked.split(b"\n")[:-1], link.said.split(b"\n")[:-1]
    spare = LINES - (len(asked) - 1)
    left = MOST - len(link.asked) - spare
    long = [b"x" * (left * (each + 1) // spare - left * each // spare) for each in range(spare)]
    asked[1:1], said[10:10] = long, [b"no toolong"] * spare
    return Link(b"\n".join([*asked, b""]), b"\n".join([*said, b""]))


def greatest(tac: str, place: Path, has_quotes: bool) -> Tuple[Played, Link]:
    """The game with the greatest log, and the link of agent 0.

    Raises:
        ProgramError: No such log fits.
    """
    for sold in range(len(FLIGHTS), -1, -1):
        played = Played(tac, place, greatest_lines(sold, has_quotes))
        if played.log.stat().st_size <= MOST:
            asked = own_lines(greatest_lines(sold, has_quotes))
            return played, played.link(0, asked, played.said[0])
    raise ProgramError("the log is too long")


def main() -> int:
    parser = Parser("vouch_beside_audit", __doc__)
    parser.add_argument("tac", help="the file of tac")
    parser.add_argument("--runs", type=whole(1), default=5,
                        help="how often each command runs (default: 5)")
    given = parser.parse_args()
    tac = file_of(given.tac)
    with tempfile.TemporaryDirectory() as folder, ProcessPoolExecutor(1) as pool:
        pool.submit(os.getpid).result()  # its process starts while this one is small
        place = Path(folder)
        asked, said = place / "asked", place / "said"

        def vouch(what: str, played: Played, link: Link) -> None:
            asked.write_bytes(link.asked)
            said.write_bytes(link.said)
            sizes = ", ".join(f"{file.stat().st_size / 1e6:.1f}"
                              for file in (played.log, asked, said))
            print(f"log, asked and said of {sizes} MB")
            show(pool, what, [tac, "vouch", played.game, played.log, asked, said], given.runs)

        lines = class_lines()
        played = Played(tac, place, iter(lines))
        audit = [tac, "audit", played.game, played.log]
        show(pool, "audit of a class's game", audit, given.runs)
        for agent in range(8):
            own = [line[2:-1] for line in lines if line[0] == str(agent)]
            vouch(f"vouch, agent {agent}", played, played.link(agent, own, played.said[agent]))
        for has_quotes in (False, True):
            played, link = greatest(tac, place, has_quotes)
            show(pool, "audit of the greatest log", audit, given.runs)
            whole_link = link if has_quotes else filled(link)
            vouch("vouch, all quotes" if has_quotes else "vouch, lines too long", played,
                  whole_link)
            more = (b"x" * 511 + b"\n") * (MOST // 512)
            vouch("the same, sent as much as can be", played,
                  Link(whole_link.asked, (whole_link.said + more)[:MOST]))
    return 0


if __name__ == "__main__":
    sys.exit(command("vouch_beside_audit", main))
