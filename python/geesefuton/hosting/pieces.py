"""The records of an agent that has lost its link: the pieces of its session, joined by the bytes of
the one link that the lobby kept for its seat.

Each piece has what the agent sent on one of its links, and what it received there. Some of the last
lines of a piece may have no reply: the link ended first, and only the bytes of the seat's link show
how many of these lines the lobby still passed on. The bytes are the agent's if they consist, piece
by piece, of the lines that have a reply, with these replies, and then of the first few of the lines
that have none. The lobby need not be trusted: `tac vouch` compares the same bytes with the log, so
wrong bytes fail one comparison or the other.
"""

from __future__ import annotations

import re
from pathlib import Path
from typing import Dict, Iterable, List, NamedTuple, Optional, Sequence, Set, Tuple

from geesefuton.hosting.seats import GREETING
from geesefuton.hosting.server_links import LinkBytes
from geesefuton.program import CommandError
from geesefuton.records.dialects import MOST_LINE

WELCOME = 10  # lines
SHOWN = 60  # bytes of a line that are shown
ASKED, SAID = ".asked", ".said"

_NAME = re.compile(r"([a-z0-9]{1,16})(?:\.([1-9][0-9]{0,8}))?")


class RecordError(CommandError):
    """Files that are no record of a link."""


class Piece(NamedTuple):
    """The record of one link: what it is called, as `red7k.2`, and its bytes."""

    name: str
    link: LinkBytes

    @property
    def word(self) -> str:
        """The word of its greeting; "" if it has none."""
        found = GREETING.fullmatch(_lines_of(self.link.asked)[0])
        return found[1].decode("ascii") if found else ""

    def named(self, word: str) -> "Piece":
        """The same with another word in its greeting."""
        _, end, rest = self.link.asked.partition(b"\n")
        asked = f"hello {word}".encode("ascii") + end + rest
        return self._replace(link=self.link._replace(asked=asked))


class Difference(NamedTuple):
    """Where pieces and a seat's link differ, and what is there and should be."""

    where: str  # such as `red7k.2, line 14`, counted from 1 behind the greeting
    what: str


def read_piece(stem: Path) -> Piece:
    """The record of a link by the name that its two files have in common.

    Raises:
        OSError: One of them is missing, or cannot be read.
        RecordError: One of them is empty.
    """
    sides = []
    for suffix in (ASKED, SAID):
        file = stem.with_name(stem.name + suffix)
        sides.append(file.read_bytes())
        if b"\n" not in sides[-1]:
            raise RecordError(f"{file} has no complete line, so it is not a record of a link")
    return Piece(stem.name, LinkBytes(*sides))


def stems_of(mine: Path) -> List[Path]:
    """The records that a name stands for: all of a folder in the order in which they were made for
    each word, or one by its stem or one of its files.

    Raises:
        OSError: The folder cannot be read.
        RecordError: It has no records.
    """
    if not mine.is_dir():
        return [mine.with_suffix("") if mine.suffix in (ASKED, SAID) else mine]
    found: Dict[Tuple[str, int], Path] = {}
    for file in mine.iterdir():
        stem = file.with_suffix("")
        name = _NAME.fullmatch(stem.name)
        if name and file.suffix in (ASKED, SAID):
            found[name[1], int(name[2] or 1)] = stem
    if not found:
        raise RecordError(f"{mine} has no records (files WORD{ASKED} and WORD{SAID})")
    return [found[key] for key in sorted(found)]


def first_difference(pieces: Sequence[Piece], link: LinkBytes, welcome: bytes
                     ) -> Optional[Difference]:
    """The first line at which the pieces, in their order, are not the session of a seat, which has
    a link of the lobby and a welcome of ten lines; None if they are."""
    whole = _Session(link)
    # How many lines of the seat's link may be those of the pieces so far.
    reached: Set[int] = {0}
    for piece in pieces:
        if not welcome.startswith(b"".join(line + b"\n" for line in
                                           _lines_of(piece.link.said)[:WELCOME])):
            return Difference(f"{piece.name}, welcome",
                              "it is not the welcome of this seat in this game")
        own = _Session(piece.link)
        matches = {start: _match(own, whole, start) for start in reached}
        if all(match.fault for match in matches.values()):
            furthest = matches[max(matches, key=lambda start: start + matches[start].fitting)]
            return Difference(f"{piece.name}, line {furthest.fitting + 1}", furthest.fault)
        reached = {end for match in matches.values() for end in match.ends}
    last = max(reached)
    if len(whole.lines) in reached:
        return None
    return Difference(f"the seat's link, line {last + 1}",
                      f"no record has {_shown(whole.lines[last])}")


class _Session:
    """The lines of a link behind the greeting, and the replies behind the welcome. Of a line that
    is too long only as much is kept as makes it too long, as the lobby does."""

    def __init__(self, link: LinkBytes) -> None:
        self.lines = [line[:MOST_LINE + 1] for line in _lines_of(link.asked)[1:]]
        self.replies = _lines_of(link.said)[WELCOME:]


class _Match(NamedTuple):
    """How a piece fits a seat's link from a line on: how many of its answered lines do, what is
    wrong with the next one, "" if all of them do, and then behind which lines it may end."""

    fitting: int
    fault: str
    ends: Iterable[int] = ()


def _match(own: _Session, whole: _Session, start: int) -> _Match:
    count = len(own.replies)
    if count > len(own.lines):
        return _Match(len(own.lines), f"it has no line for the reply {_shown(own.replies[-1])}")
    pairs = zip(own.lines, own.replies)
    for number, (line, reply) in enumerate(pairs):
        fault = _fault(line, reply, whole, start + number)
        if fault:
            return _Match(number, fault)
    end = last = start + count
    for line, other in zip(own.lines[count:], whole.lines[end:]):
        if line != other:
            break
        last += 1
    return _Match(count, "", range(end, last + 1))


def _fault(line: bytes, reply: bytes, whole: _Session, place: int) -> str:
    """What is wrong with an answered line and its place in the seat's link; "" if nothing is."""
    if place >= len(whole.lines):
        return f"the seat's link does not have the line {_shown(line)}"
    if whole.lines[place] != line:
        return f"the agent sent {_shown(line)}, the seat's link has {_shown(whole.lines[place])}"
    if place >= len(whole.replies):
        return f"the seat's link has no reply to {_shown(line)}"
    if whole.replies[place] != reply:
        return (f"the agent got {_shown(reply)} for {_shown(line)}, the seat's link has "
                f"{_shown(whole.replies[place])}")
    return ""


def _lines_of(text: bytes) -> List[bytes]:
    """The whole lines of a text, without their ends."""
    return text.split(b"\n")[:-1]


def _shown(line: bytes) -> str:
    """A line as it is shown to people."""
    return repr(line[:SHOWN].decode("latin-1"))
