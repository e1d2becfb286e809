"""Games through the lobby, which are recovered from their journals.

    python3 -m tests.soak.journals SEED

A served game, whose agents crash, hang, flood and come back, must be recovered with the histories
and the sheet of the served log, byte for byte. In another one lobby and server are killed at a
random moment: the recovered log must be sound, and hold every entry whose reply an agent has. And
the journal of the served game is cut at random places, with the last replies of some agents taken
away: what is recovered must be sound. It takes some 30 seconds.
"""

import json
import os
import random
import re
import shutil
import signal
import subprocess
import sys
import time
from pathlib import Path
from typing import Iterator, List, Optional, Sequence, Tuple

from geesefuton import program
from geesefuton.processes import Children
from geesefuton.records.dialects import asked_by, position_of, reply_of
from geesefuton.records.logs import read_log
from geesefuton.records.replies import Request, entry_words, request_words
from tests.package.journals import cut_lines, parts_of
from tests.support import soaking
from tests.support.soaking import AGENTS, Hosted, example
from tests.support.trying import COMMAND, descendants, of_process

PACE = 80  # milliseconds from tick to tick
MOST = 300.0  # seconds that a served game may take
CUTS = 4  # of a journal
SERVED = ["calm", "pipe", "crash", "vanish", "hang", "flood", "deaf", "back", "back", "garbage"]
KILLED = ["calm", "pipe", "pipe", "flood", "flood", "deaf", "back"]


class Game(Hosted):
    """A game of a seed: every third speaks JSON, every second is of version 2, of these every
    second has live quotes."""

    def __init__(self, children: Children, seed: int, folder: Path) -> None:
        super().__init__(children, folder, seed)
        self.seed, self.form = seed, "words" if seed % 3 else "json"
        self.dice = random.Random(seed)
        if seed % 2:
            rooms = " ".join(str(self.dice.randint(1, 8)) for _ in range(8))
            lines = program.upgrade(self.file).split("\n")
            lines[11] = f"rooms {rooms}"
            lines[12] = "quotes live" if seed % 4 == 1 else "quotes minute"
            self.file.write_text("\n".join(lines))

    def begin(self, kinds: Sequence[Optional[str]],
              goods: Sequence[int]) -> "subprocess.Popen[bytes]":
        """Starts the lobby, and an agent of each kind."""
        lobby = self.start(PACE, *["json"] * (self.form == "json"), "--start", 4, "--after", 1.5,
                           "--silence", 0.7)
        for seat, kind in enumerate(kinds):
            if kind == "asker":
                self.join(seat, ["node", str(AGENTS / "asker.mjs")], PACE / 1000)
            elif kind in ("planner", "trader", "watcher"):
                self.join(seat, example(kind), PACE / 1000)
            elif kind is not None:
                self.join(seat, [sys.executable, "-m", "tests.support.wild_agent"], PACE / 1000,
                          "--mode", kind, "--form", self.form, "--out",
                          str(self.folder / f"said{seat}"), "--seed", str(self.seed * 8 + seat),
                          "--goods", ",".join(map(str, goods)))
        return lobby

    def tame(self, count: int) -> List[str]:
        """So many agents that play in earnest."""
        kinds = ["planner", "trader", "planner", "watcher"]
        if self.form == "json":
            kinds = ["asker"] if shutil.which("node") else ["calm"]
        return [kinds[number % len(kinds)] for number in range(count)]

    def recover(self, journal: Path, to: str) -> "subprocess.CompletedProcess[str]":
        """Ends the agents, and recovers a journal into a file."""
        self.children.close()
        with (self.folder / to).open("wb") as log:
            return subprocess.run([*COMMAND, "recover", journal], stdout=log,
                                  stderr=subprocess.PIPE, text=True, check=False)

    def faults(self, done: "subprocess.CompletedProcess[str]", log: str) -> Iterator[str]:
        """What is wrong with a recovery and its log, and what agents noted as wrong."""
        verdict = "; ".join(self.unsound(log))
        if done.returncode or verdict:
            yield f"recovered with {done.returncode}, {verdict}: {done.stderr[-300:]}"
        for said in self.folder.glob("said*"):
            yield from (line for line in said.read_text().splitlines() if line.startswith("wrong"))


def serve(game: Game) -> Iterator[str]:
    """Serves a game, which is to be recovered as it was."""
    kinds: List[Optional[str]] = [*game.tame(4), *game.dice.sample(SERVED, 4)]
    game.dice.shuffle(kinds)
    if game.seed % 5 == 0:
        kinds[3] = None
    status = game.begin(kinds, range(28)).wait(MOST)
    done = game.recover(game.journal, "recovered")
    yield from game.faults(done, "recovered")
    here, there = ((game.folder / name).read_text() for name in ("log", "recovered"))
    print(f"served in {game.form} to {' '.join(map(str, kinds))}: {here.count(' = ')} entries, "
          f"{here.count('trade ')} trades", flush=True)
    if status not in (program.OK, program.CLOCK) or done.returncode:
        yield f"the lobby ended with {status}"
        return
    ours, theirs = parts_of(here), parts_of(there)
    yield from (f"{name} differ" for name in ours if ours[name] != theirs[name])


def kill(game: Game) -> Iterator[str]:
    """Kills a game. What agents were told has to be in the recovered log."""
    tame = game.tame(2)
    kinds = [game.dice.choice(KILLED + tame) for _ in range(8)]
    goods = range(28) if game.seed % 2 else game.dice.sample(range(28), 3)
    lobby = game.begin(kinds, goods)
    while "begins" not in game.told():
        if lobby.poll() is not None:
            yield f"the lobby ended with {lobby.returncode}"
            return
        time.sleep(0.01)
    time.sleep(game.dice.random() * 0.9 * 54 * PACE / 1000)
    numbers = [lobby.pid, *(process for process in descendants(lobby.pid)
                            if b"serve" in of_process(process, "cmdline").split(b"\0"))]
    for number in numbers if game.seed % 2 else reversed(numbers):
        os.kill(number, signal.SIGKILL)
    time.sleep(0.3)
    done = game.recover(game.journal, "recovered")
    yield from game.faults(done, "recovered")
    noted, missing = check_notes(game) if not done.returncode else (0, 0)
    told = done.stderr.split("\n")
    print(f"killed in {game.form} with {' '.join(kinds)}: {noted} entries noted, "
          f"{sum('in the log' in line for line in told)} made and "
          f"{sum('left out: ' in line for line in told)} left out without a reply", flush=True)
    if missing:
        yield f"{missing} of {noted} entries that agents noted are missing"


def check_notes(game: Game) -> Tuple[int, int]:
    """How many entries agents noted, and how many of these are not in the recovered log."""
    histories = read_log((game.folder / "recovered").read_bytes()).histories
    noted = missing = 0
    for said in game.folder.glob("said*"):
        for line in said.read_text().splitlines():
            try:
                agent, asked, reply = json.loads(line)
            except ValueError:
                continue  # the agent was killed while it wrote
            told = reply_of(reply, game.form)
            at = position_of(told)
            call = None if at is None else asked_by(asked, game.form)
            if call is None or at is None or call.keyword in ("quote", "cash"):
                continue
            noted += 1
            here = histories[call.good][at:at + 1]
            missing += [(entry.caller, request_words(Request(
                entry.call.do, call.good, entry.call.points)), entry_words(entry.reply))
                        for entry in here] != [(agent, call.text, told.partition(" ")[2])]
    return noted, missing


def cut(game: Game) -> Iterator[str]:
    """Cuts a journal at random places, and recovers each part."""
    lines = game.journal.read_text().split("\n")[:-1]
    made = 0
    for number in range(CUTS if any('"r":' in line for line in lines) else 0):
        journal = game.folder / f"cut{number}"
        journal.write_text("\n".join(cut_lines(game.dice, lines)) + "\n")
        done = game.recover(journal, "cut.recovered")
        yield from (f"cut {number}: {fault}" for fault in game.faults(done, "cut.recovered"))
        made += bool(re.search("without a reply, in the log", done.stderr))
    print(f"in {made} of {CUTS} cut journals a request without a reply had been made", flush=True)


def soak(seed: int, folder: Path, _: Children) -> Iterator[str]:
    if not shutil.which("node"):
        print("left out: agents in JavaScript: there is no Node")
    with Children() as children:
        game = Game(children, seed, folder / "served")
        yield from serve(game)
        yield from cut(game)
    with Children() as children:
        yield from kill(Game(children, seed, folder / "killed"))


if __name__ == "__main__":
    soaking.main("journals", __doc__, soak)
