"""The bytes of the lobby's own links to its server, one for each seat, by the game's journal; and
what `tac vouch` says of a log by such bytes.

The journal has each line that the lobby passed on to the server, and each reply. It does not have
the greeting and the ten lines of the welcome, which follow from the game file. What the lobby said
to its server in place of a seat's word is not told: nobody else has to know it.
"""

from __future__ import annotations

from pathlib import Path
from typing import Any, Dict, List, NamedTuple, Optional, Sequence, Union

from geesefuton import program
from geesefuton.hosting.journal import read_journal
from geesefuton.records.games import SEATS, welcome


class LinkBytes(NamedTuple):
    """The bytes of a link: what was asked, and what was said. Of a line that is too long they have
    the first 513 bytes, as the journal has."""

    asked: bytes
    said: bytes


def server_links(file: Path) -> List[LinkBytes]:
    """The bytes of the link of each of the eight seats, by a journal; none if the server had not
    started.

    Raises:
        JournalError: It is no journal.
        OSError: It cannot be read.
    """
    asked, said = ([bytearray() for _ in range(SEATS)] for _ in range(2))

    def take(what: Dict[str, Any]) -> None:
        for key, lines in (("q", asked), ("r", said)):
            if key in what:
                lines[what["a"]] += what[key].encode("latin-1") + b"\n"

    reader = read_journal(file, take)
    if reader.game is None or not reader.is_playing:
        return []
    return [LinkBytes(b"hello %b\n%b" % (word.encode("ascii"), asked[seat]),
                      welcome(reader.text, seat) + said[seat] if reader.has_begun else b"")
            for seat, word in enumerate(reader.game.words)]


def is_vouched(said: str) -> bool:
    """Whether what is said of a link is a yes."""
    return said.startswith("vouched ")


def audit_link(link: LinkBytes, game: Path, log: Union[Path, bytes], form: str, folder: Path,
               timeout: Optional[float] = None) -> str:
    """What is said of a log, a file or its bytes, by the bytes of one link, whose lines are written
    in a form, `words` or `json`, within some seconds. In the folder files may be made.

    Raises:
        OSError: The folder takes no more.
        program.ProgramError: There is no program, it refused a file, or took too long.
    """
    asked, said = folder / "link.asked", folder / "link.said"
    asked.write_bytes(link.asked)
    said.write_bytes(link.said)
    return program.vouch(game, log, asked, said, form, timeout)


def summary(words: Sequence[str], said: Sequence[str]) -> str:
    """How many links are vouched for, such as `vouched 8 of 8`, and what is said of the others, by
    what each link is called."""
    others = [f"{word}: {each}" for word, each in zip(words, said) if not is_vouched(each)]
    more = f" ({'; '.join(others)})" if others else ""
    return f"vouched {len(said) - len(others)} of {len(said)}{more}"
