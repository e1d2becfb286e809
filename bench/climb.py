#!/usr/bin/env python3
"""Searches for accounts that are hard for `tac solve`: climbs from random accounts with similar
clients, by the lines of their certificates.

    bench/climb.py --tac crates/tacd/out/tacd --starts 20 --seconds 600 --keep hard

Each start has its own seed and time, and leaves its hardest account as FOLDER/climb-SEED.account.
The same seed with the same number of tries gives the same account. An account that takes longer
than --limit seconds ends its start and is kept as found.
"""

import argparse
import random
import subprocess
import sys
import tempfile
import time
from pathlib import Path
from typing import List, Optional, Tuple

from running import Parser, ProgramError, command, file_of, read_account

Account = Tuple[List[int], List[List[int]]]  # holdings, and clients


def random_client(chance: random.Random) -> List[int]:
    """A client: its days, its premium and its values."""
    arrive = chance.randint(1, 4)
    return [arrive, chance.randint(arrive + 1, 5), chance.randint(50, 150),
            *(chance.randint(0, 200) for _ in range(3))]


def random_account(chance: random.Random) -> Account:
    """Holdings, and clients of one to three kinds, some of them changed a little."""
    most = chance.choice((2, 3, 5))
    holdings = [chance.randint(0, most + (2 if good < 8 else 0)) for good in range(28)]
    kinds = [random_client(chance) for _ in range(chance.randint(1, 3))]
    clients = [list(chance.choice(kinds)) for _ in range(8)]
    for client in clients:
        if chance.random() < 0.25:
            client[chance.randint(3, 5)] = chance.randint(0, 200)
    return holdings, clients


def changed(chance: random.Random, account: Account) -> Account:
    """The account with one to three small changes."""
    holdings, clients = list(account[0]), [list(client) for client in account[1]]
    for _ in range(chance.randint(1, 3)):
        kind, number = chance.randint(0, 4), chance.randint(0, 7)
        if kind < 2:
            good = chance.randint(0, 27)
            holdings[good] = min(8, max(0, holdings[good] + chance.choice((-1, 1))))
        elif kind == 2:
            clients[number] = list(chance.choice(clients))
        elif kind == 3:
            place = chance.randint(2, 5)
            some = (100, 150, chance.randint(50, 150)) if place == 2 else \
                (0, 200, chance.randint(0, 200))
            clients[number][place] = chance.choice(some)
        else:
            clients[number][:2] = random_client(chance)[:2]
    return holdings, clients


def text_of(account: Account) -> str:
    """The text of an account file."""
    holdings, clients = account
    rows = (f"client {number} " + " ".join(map(str, client))
            for number, client in enumerate(clients))
    return "\n".join(["account", "hold " + " ".join(map(str, holdings)), *rows, "end", ""])


def lines_of(tac: str, account: Account, limit: float) -> Optional[int]:
    """The lines of the account's certificate; None if it takes longer than the limit in seconds.

    Raises:
        ProgramError: The program gives no certificate.
    """
    with tempfile.NamedTemporaryFile("w", suffix=".account") as file:
        file.write(text_of(account))
        file.flush()
        try:
            done = subprocess.run([tac, "solve", file.name], capture_output=True, text=True,
                                  timeout=limit, check=False)
        except subprocess.TimeoutExpired:
            return None
    lines = [line for line in done.stdout.splitlines() if line.startswith("cert ")]
    if done.returncode or not lines:
        raise ProgramError(f"{tac} solve ended with exit status {done.returncode}: "
                           f"{done.stdout[:60].strip()}")
    return int(lines[0].split()[1])


def climb(words: argparse.Namespace, tac: str, seed: int, start: Optional[Account]) -> None:
    """Climbs from an account or a random one, and keeps the hardest that it finds."""
    chance = random.Random(seed)
    account = start or random_account(chance)
    score, tries = lines_of(tac, account, words.limit), 0
    end = time.monotonic() + words.seconds
    while score is not None and tries < words.tries and time.monotonic() < end:
        # The first tries look for a place to start from.
        is_first = start is None and tries < 200
        other = random_account(chance) if is_first else changed(chance, account)
        lines = lines_of(tac, other, words.limit)
        tries += 1
        if lines is None or lines >= score:
            account, score = other, lines
    file = Path(words.keep) / f"climb-{seed}.account"
    file.write_text(text_of(account))
    told = "over the limit" if score is None else f"{score} lines"
    print(f"{file}  {tries} tries  {told}", flush=True)


def main() -> int:
    parser = Parser("climb", __doc__)
    add = parser.add_argument
    add("accounts", nargs="*", help="accounts to climb from, one a start, instead of random ones")
    add("--tac", default="crates/tacd/out/tacd", help="the program (default: %(default)s)")
    add("--starts", type=int, default=20, help="how many random starts (default: %(default)s)")
    add("--seed", type=int, default=1, help="the first seed (default: %(default)s)")
    add("--seconds", type=float, default=600, help="the time of a start (default: %(default)s)")
    add("--tries", type=int, default=1_000_000,
        help="the most tries of a start (default: %(default)s)")
    add("--limit", type=float, default=20,
        help="the most seconds of one account (default: %(default)s)")
    add("--keep", default="hard", help="the folder for what is found (default: %(default)s)")
    words = parser.parse_args()
    tac = file_of(words.tac)
    Path(words.keep).mkdir(parents=True, exist_ok=True)
    starts: List[Optional[Account]] = [read_account(file) for file in words.accounts]
    for number, start in enumerate(starts or [None] * words.starts):
        climb(words, tac, words.seed + number, start)
    return 0


if __name__ == "__main__":
    sys.exit(command("climb", main))
