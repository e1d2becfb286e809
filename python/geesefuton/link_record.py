"""An agent's record of its link, if the variable AGENT_RECORD names a folder: the bytes that it
sent, and those that it received.

A link that has its seat gets two new files in the folder, `WORD.asked` and `WORD.said` with its
seat word, or `WORD.2.asked` and `WORD.2.said` if one of them exists already, and so on. A line is
written before it is sent, so WORD.asked has what the agent tried to send; a reply is written before
the agent sees it. A link that was refused leaves no files.
"""

import io
import itertools
import os
from pathlib import Path
from typing import List, Optional, Tuple

from geesefuton.processes import tell, why

VARIABLE = "AGENT_RECORD"


class LinkRecord:
    """The record of the links of an agent, one after the other. Once a file takes no more, that is
    told in a line, and nothing more is kept.

    Args:
        word: The seat word.
        folder: Where the files are made; "" if nothing is to be kept.
    """

    def __init__(self, word: str, folder: str) -> None:
        self._word, self._folder = word, folder
        # What was asked and said on a link that has no seat yet.
        self._held: Optional[Tuple[bytearray, bytearray]] = None
        self._files: List[io.FileIO] = []

    def begin(self) -> None:
        """A new link is there, which has no seat yet."""
        self.close()
        self._held = (bytearray(), bytearray()) if self._folder else None

    def seat(self) -> None:
        """The link has its seat: its files are made, with what was sent and came so far."""
        held, self._held = self._held, None
        if held is None:
            return
        try:
            self._make(Path(self._folder))
        except OSError as fault:
            self._give_up(f"{fault.filename or self._folder}: {why(fault)}")
        for side, data in enumerate(held):
            self._keep(side, bytes(data))

    def ask(self, data: bytes) -> None:
        """The agent is about to send this."""
        self._keep(0, data)

    def hear(self, data: bytes) -> None:
        """This came."""
        self._keep(1, data)

    def close(self) -> None:
        """The link has ended: closes its files."""
        for file in self._files:
            file.close()
        self._files = []

    def _keep(self, side: int, data: bytes) -> None:
        if self._held is not None:
            self._held[side].extend(data)
            return
        files = self._files  # another thread may close them
        if files:
            self._write(files[side], data)

    def _write(self, file: io.FileIO, data: bytes) -> None:
        rest = memoryview(data)
        try:
            while rest:
                rest = rest[file.write(rest):]
        except OSError as fault:
            self._give_up(f"{str(file.name)}: {why(fault)}")
        except ValueError:
            pass  # it was closed

    def _make(self, folder: Path) -> None:
        """Makes the files, by the first number that has none.

        Raises:
            OSError: The folder or a file cannot be made.
        """
        folder.mkdir(parents=True, exist_ok=True)
        for number in itertools.count(1):
            name = self._word if number == 1 else f"{self._word}.{number}"
            asked, said = folder / f"{name}.asked", folder / f"{name}.said"
            if not said.exists() and not asked.exists():
                break
        for file in (asked, said):
            self._files.append(io.FileIO(str(file), "x", opener=_opened))

    def _give_up(self, what: str) -> None:
        self.close()
        self._folder = ""
        tell(f"{self._word}: {what}: the agent plays on without its record")


def _opened(name: str, flags: int) -> int:
    """Opens a file that only its owner may read: it has the seat word, which is a password."""
    return os.open(name, flags, 0o600)


def usual_folder() -> str:
    """The folder that the variable names; "" if it names none."""
    return os.environ.get(VARIABLE, "")
