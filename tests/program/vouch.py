"""Compares what `tac vouch` says of a link with what a plain reading of the rules says, which
shares no line with it (tests/support/vouching.py).

    python3 -m tests.program.vouch served|changed|meddled [--games N] [--first SEED]

served: games with hostile agents. `tac vouch` has to vouch for each link that has its seat and was
sent its whole welcome, and for no other.
changed: 20 records of a game by a script, each with one thing changed: a line or a reply of the
agent; an entry, a trade, a post or a reading of the log; a call, so that the log is that of another
game, and sound; the cause of the session's end; replies for want of memory. Every second one is in
JSON. Where the log is not sound, `tac vouch` has to say what `tac audit` says.
meddled: four games by a script in which a relay drops, doubles, swaps or invents one request of an
agent, and hides it. By that agent's record a difference has to be found, and by no other's.

Both readings have to say the same of all. It ends with a line of counts, and with 0 if all is
right. The files of a game that is wrong are kept if --keep names a folder.
"""

import asyncio
import random
import shutil
import sys
from collections import Counter
from pathlib import Path
from typing import Callable, Counter as CounterOf, Dict, Iterator, List, Optional

from geesefuton import program
from geesefuton.arguments import Parser, whole
from geesefuton.processes import Children, command
from tests.program.hostile_games import play_hostile
from tests.support import made_records as records
from tests.support.judging import Judge
from tests.support.made_records import KINDS, Changes, text_of
from tests.support.vouching import is_vouched

OF_GAME = 20  # changed records of a game
TOLD = 50  # after so many games it is told how many there were
Counts = CounterOf[str]


def served(children: Children, seed: int, folder: Path, counts: Counts) -> Iterator[str]:
    """What is wrong with what is said of the links of a game with hostile agents."""
    judge, relay = asyncio.run(play_hostile(children, seed, folder))
    for number, link in enumerate(relay.links):
        said = judge.said_of(bytes(link.asked), bytes(link.said), f"link {number}")
        if is_vouched(said) != link.is_welcome():
            yield f"link {number}: {said}"
        else:
            counts[said.split(" ")[2] if link.is_welcome() else "without a seat or a welcome"] += 1
    yield from judge.wrong


def meddled(_: Children, seed: int, folder: Path, counts: Counts) -> Iterator[str]:
    """What is wrong with what is said of agents with whose requests a relay meddled."""
    for way in records.WAYS:
        played, agent = records.meddled(random.Random(f"{seed} {way}"), folder, way)
        judge = Judge(folder / "game", played.log.encode(), "words")
        for each, (asked, said) in enumerate(zip(played.asked, played.said)):
            told = judge.said_of(text_of(asked), text_of(said), f"{way}, agent {each}")
            if is_vouched(told) == (each == agent):
                yield f"a relay {way} a request of {agent}, and {each} is {told}"
            counts[f"{way}: {' '.join(told.split()[:2])}"] += each == agent
        yield from judge.wrong


def changed(_: Children, seed: int, folder: Path, counts: Counts) -> Iterator[str]:
    """What is wrong with what is said of changed records."""
    changes = Changes(random.Random(seed), folder)
    for number in range(seed * OF_GAME, (seed + 1) * OF_GAME):
        kind, form = list(KINDS)[number % len(KINDS)], ("words", "json")[number // len(KINDS) % 2]
        record = changes.drawn(kind, form)
        judge = Judge(folder / "game", "\n".join(record.log).encode("latin-1"), form)
        said = judge.said_of(text_of(record.asked), text_of(record.said), f"{number}, {kind}")
        counts[f"{kind}: {said.split(' ')[0]}"] += 1
        yield from judge.wrong


MODES: Dict[str, Callable[[Children, int, Path, Counts], Iterator[str]]] = {
    each.__name__: each for each in (served, changed, meddled)}


def play(mode: str, keep: Optional[Path], seed: int, counts: Counts) -> List[str]:
    """What is wrong with a game. Its files are kept then."""
    with Children() as children:
        folder = children.folder(mode)
        try:
            wrong = list(MODES[mode](children, seed, folder, counts))
        except program.ProgramError as fault:
            wrong = [str(fault)]
        if wrong and keep is not None:
            shutil.copytree(folder, keep / f"{mode}{seed}", dirs_exist_ok=True)
    return [f"game {seed}: WRONG: {line}" for line in wrong]


def main() -> int:
    parser = Parser("vouch", __doc__ or "")
    add = parser.add_argument
    add("mode", choices=MODES)
    add("--games", type=whole(1), default=4, metavar="N", help="how many games (default: 4)")
    add("--first", type=whole(1), default=1, metavar="SEED", help="the first seed (default: 1)")
    add("--keep", type=Path, metavar="FOLDER", help="keep the files of a wrong game here")
    given, counts, wrong = parser.parse_args(), Counter[str](), 0
    program.find()
    for seed in range(given.first, given.first + given.games):
        lines = play(given.mode, given.keep, seed, counts)
        wrong += len(lines)
        print(*lines, sep="\n", end="\n" * bool(lines), flush=True)
        if (seed - given.first) % TOLD == TOLD - 1:
            print(f"up to game {seed}: {dict(counts)}", flush=True)
    told = ", ".join(f"{count} {what}" for what, count in sorted(counts.items()))
    print(f"vouch, {given.mode}: {given.games} games: {told}; wrong: {wrong}")
    return 1 if wrong else 0


if __name__ == "__main__":
    sys.exit(command("vouch", main))
