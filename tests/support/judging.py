"""What `tac vouch` says of links, which has to be what the plain reading says of them."""

from pathlib import Path
from typing import Callable, List

from geesefuton import program
from geesefuton.records.games import read_game
from geesefuton.records.logs import read_log
from tests.support import vouching as reading


class Judge:
    """Says of links what both readings say.

    Args:
        file: The game's file; the records stand beside it.
        log: The log.
        form: What agents speak.

    Attributes:
        verdict: What the audit says of the log.
        wrong: What is wrong, a line for each.
    """

    def __init__(self, file: Path, log: bytes, form: str) -> None:
        self._file, self._log, self._form = file, log, form
        self.verdict = answer(lambda: program.audit(file, log))
        if self.verdict == "sound":
            self._boards = reading.Boards(read_game(file.read_text("ascii")), read_log(log))
        self.wrong: List[str] = []

    def said_of(self, asked: bytes, said: bytes, name: str = "it") -> str:
        """What `tac vouch` says of a link, which is what has to be said."""
        files = self._file.with_name("asked"), self._file.with_name("said")
        for place, data in zip(files, (asked, said)):
            place.write_bytes(data)
        told = answer(lambda: program.vouch(self._file, self._log, *files, self._form))
        due = self.verdict
        if due == "sound":
            due = reading.vouching(self._boards, asked, said, self._form)
        if told != due:
            self.wrong.append(f"{name}: `{told}`, and by the plain reading `{due}`")
        return told


def answer(ask: Callable[[], str]) -> str:
    """What the program answers, also where it refuses a log."""
    try:
        return ask()
    except program.ProgramError as fault:
        if fault.status != reading.TEXT_REFUSED:
            raise
        return fault.line
