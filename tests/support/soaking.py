"""What the scripts of the soak share: how they are run, and a game that a lobby hosts."""

import subprocess
import sys
from pathlib import Path
from typing import Any, Callable, Iterator, List, Optional, Sequence

from geesefuton import program
from geesefuton.arguments import Parser, whole
from geesefuton.processes import Children, command, free_port
from tests.support.trying import COMMAND, TOP

AGENTS = TOP / "examples" / "agents"
LOBBY = (*COMMAND, "lobby")


def main(name: str, text: Optional[str], soak: Callable[[int, Path, Children], Iterator[str]]
         ) -> None:
    """Runs a script's soak of the seed that it is given, prints what is wrong, and exits: with 1 if
    something is.

    Args:
        name: Of the script.
        text: What it does.
        soak: Yields what is wrong; it is given the seed, an empty folder, and by what it can start
            processes that end with it.
    """
    def run() -> int:
        parser = Parser(name, text or "")
        parser.add_argument("seed", type=whole(0))
        parser.add_argument("--keep", type=Path, metavar="FOLDER", help="keep the files here")
        given, count = parser.parse_args(), 0
        with Children() as children:
            folder = given.keep or children.folder(name)
            folder.mkdir(parents=True, exist_ok=True)
            for fault in soak(given.seed, folder, children):
                count += 1
                print(f"{name} {given.seed}: WRONG: {fault}", flush=True)
        print(f"{name} {given.seed}: {count or 'no'} faults")
        return 1 if count else 0

    sys.exit(command(name, run))


def example(name: str) -> List[str]:
    """The command of an agent of the examples."""
    return [sys.executable, str(AGENTS / f"{name}.py")]


class Hosted:
    """A game of a seed that a lobby hosts.

    Args:
        children: By which all is started.
        folder: For its files; it is made if it is missing.
        seed: Of the game.

    Attributes:
        file, log, journal: The files of the game, its log and its journal.
        port, page: The ports of agents and of the pages.
    """

    def __init__(self, children: Children, folder: Path, seed: int) -> None:
        folder.mkdir(exist_ok=True)
        self.children, self.folder = children, folder
        self.file, self.log, self.journal, self._told = (
            folder / name for name in ("my.game", "log", "journal", "told"))
        self.file.write_text(program.make(seed))
        self.port, self.page = free_port(), free_port()

    def start(self, pace: int, *words: object, lobby: Sequence[object] = LOBBY,
              **how: Any) -> "subprocess.Popen[bytes]":
        """Starts the lobby.

        Args:
            pace: Milliseconds from tick to tick.
            words: More words.
            lobby: Its command.
            how: What else `subprocess.Popen` is given.
        """
        said = [*lobby, self.file, self.port, pace, *words, "--journal",
                self.journal]
        with self.log.open("wb") as log, self._told.open("wb") as told:
            return self.children.start([str(word) for word in said], **{
                "stdin": subprocess.DEVNULL, "stdout": log, "stderr": told, **how})

    def join(self, seat: int, words: List[str], pause: float, *more: str, host: str = "localhost",
             port: int = 0, **how: Any) -> None:
        """Starts the agent of a seat, by the command and more words behind the usual ones. What it
        prints is in the file `agentN`."""
        said = [*words, host, str(port or self.port), f"seat{seat}", "--pause", str(pause), *more]
        with (self.folder / f"agent{seat}").open("wb") as out:
            self.children.start(said, stdin=subprocess.DEVNULL, stdout=out,
                                stderr=subprocess.STDOUT, cwd=TOP, **how)

    def told(self) -> str:
        """What the lobby has told so far."""
        return self._told.read_text(errors="replace")

    def unsound(self, log: str = "log") -> Iterator[str]:
        """What is said of a log that is not sound."""
        try:
            verdict = program.audit(self.file, self.folder / log)
        except program.ProgramError as fault:
            verdict = str(fault)
        yield from [] if verdict == "sound" else [f"the log: {verdict}"]

    def not_whole(self, seat: int, asked: Path, said: Path) -> Iterator[str]:
        """What `tac vouch` says of a seat's link if it does not vouch for the whole of it."""
        verdict = program.vouch(self.file, self.log, asked, said)
        if not verdict.startswith(f"vouched {seat} whole "):
            yield f"seat{seat}: {verdict}"
