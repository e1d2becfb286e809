#!/usr/bin/env python3
"""Measures the time of `tac audit` on a log of 52 MB, beside `wc -l`, a plain reader in Python and
a plain replay in C++ of the same log.

    taskset -c 0 bench/audit_beside_plain.py crates/tacd/out/tacd

The log is that of all bids that eight agents can make in a game, 1024 each in each of the 28
auctions, of 16 points each. They come before the first tick. No seat is bought, rooms are bid for
at rising prices, and odd agents buy all the tickets that even ones offer. Each command runs --runs
times; the output has the least and the greatest of its processor times, user and system, and of
its wall times, in seconds.
"""

import sys
import tempfile
from pathlib import Path
from typing import List, Tuple

from running import Parser, command, file_of, need, run, whole

HERE = Path(__file__).resolve().parent
BIDS = 1024  # of each agent in each auction


def points(agent: int, good: int, number: int) -> List[Tuple[int, int]]:
    """The points of an agent's bid, 16 of one unit each."""
    if good >= 16:
        return [(1 if agent % 2 else -1, 5000)] * 16
    least = 20 if good < 8 else 2000 + number  # dollars; a seat costs 150 or more
    return [(1, least + place) for place in range(16)]


def write_script(file: Path) -> None:
    """Writes the script of all bids."""
    with file.open("w") as script:
        for number in range(BIDS):
            for good in range(28):
                for agent in range(8):
                    bid = points(agent, good, number)
                    text = " ".join(f"({units} {price})" for units, price in bid)
                    script.write(f"{agent} bid {good} ({text})\n")


def write_log(tac: str, place: Path) -> Tuple[Path, Path]:
    """The files of a game and of its log, with no reply lines before it."""
    game, script, log = place / "game", place / "script", place / "log"
    game.write_text(run([tac, "make", "42"]).text)
    write_script(script)
    text = run([tac, "play", game, script]).text
    log.write_text(text[text.index("taclog 1\n"):])
    return game, log


def main() -> int:
    parser = Parser("audit_beside_plain", __doc__)
    parser.add_argument("tac", help="the file of tac")
    parser.add_argument("--runs", type=whole(1), default=5,
                        help="how often each command runs (default: 5)")
    given = parser.parse_args()
    tac = file_of(given.tac)
    need("g++", "wc")
    with tempfile.TemporaryDirectory() as folder:
        place = Path(folder)
        game, log = write_log(tac, place)
        replay = place / "plain_replay"
        run(["g++", "-std=c++17", "-O2", HERE / "plain_replay.cpp", "-o", replay])
        print(f"{log.stat().st_size / 1e6:.1f} MB", flush=True)
        for name, words in (("wc -l", ["wc", "-l", log]), ("tac audit", [tac, "audit", game, log]),
                            ("plain replay", [replay, game, log]),
                            ("plain reader", [sys.executable, HERE / "plain_reader.py", log])):
            runs = [run(words) for _ in range(given.runs)]
            processor, wall = [one.processor for one in runs], [one.wall for one in runs]
            print(f"{name:12} processor {min(processor):6.2f} to {max(processor):6.2f}  wall "
                  f"{min(wall):6.2f} to {max(wall):6.2f}  {runs[0].text.strip()[:80]}", flush=True)
    return 0


if __name__ == "__main__":
    sys.exit(command("audit_beside_plain", main))
