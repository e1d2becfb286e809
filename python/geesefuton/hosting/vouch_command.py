"""Checks whether a log is right about links, by the bytes sent on them.

    geesefuton vouch GAME LOG --journal J               the lobby's links
    geesefuton vouch GAME LOG mine                      an agent's own records
    geesefuton vouch GAME LOG mine --published FOLDER   if it reconnected

It audits the log, prints a line for each link, and last how many are vouched,
as `vouched: 8 of 8`: the exit status is 0 only if all are. MINE is a folder of
the records of one game (AGENT_RECORD=mine), or the stem of one, such as
mine/red7k for mine/red7k.asked and mine/red7k.said.
"""

from __future__ import annotations

import argparse
from pathlib import Path
from typing import Dict, List, Optional, Tuple

from geesefuton import program
from geesefuton.arguments import Parser
from geesefuton.hosting.journal import read_journal
from geesefuton.hosting.pieces import (ASKED, SAID, Piece, first_difference, read_piece,
                                       stems_of)
from geesefuton.hosting.server_links import LinkBytes, audit_link, is_vouched, server_links
from geesefuton.processes import Children, Output, command, tell
from geesefuton.records.games import read_game, welcome

PIECES = "{} has {} records, none of the whole session: add --published FOLDER or --journal J"


class VouchError(program.CommandError):
    """Files by which nothing can be judged."""


def _arguments() -> argparse.Namespace:
    parser = Parser("vouch", __doc__)
    add = parser.add_argument
    add("game", type=Path, metavar="GAME", help="the game file")
    add("log", type=Path, metavar="LOG", help="the log of the game")
    add("mine", type=Path, nargs="*", metavar="MINE",
        help="a folder of records, or the stem of one")
    add("--journal", type=Path, metavar="J", help="judge by the lobby's journal of this game")
    add("--published", type=Path, metavar="FOLDER",
        help="judge by the bytes that the host published")
    add("--publish", type=Path, metavar="FOLDER",
        help="write the bytes of the links into this new folder")
    add("--json", action="store_true", help="read the records as JSON objects instead of words")
    add("--seat", metavar="WORD", help="take the records for those of this seat of the game file")
    given = parser.parse_intermixed_args()
    if given.journal and given.published:
        parser.error("give --journal or --published, not both")
    if given.publish and not given.journal:
        parser.error("--publish needs --journal")
    if not (given.mine or given.journal or given.published):
        parser.error("give MINE, --journal or --published")
    if given.seat is not None and not given.mine:
        parser.error("--seat needs MINE")
    return given


class _Judge:
    """Judges links by a game and its log, as the command line says.

    Raises:
        OSError: The game file or the log cannot be read.
        VouchError: The log is not sound.
        program.ProgramError: One of them is refused.
    """

    def __init__(self, given: argparse.Namespace, folder: Path) -> None:
        self._given, self._folder = given, folder
        for file in (given.game, given.log):
            file.open("rb").close()  # the program does not tell which file is missing
        self._text = program.show(given.game)
        self._words = read_game(self._text).words
        self._form = "json" if given.json else "words"
        self.hint = ""  # what the user may have forgotten
        audit = program.audit(given.game, given.log)
        if audit != "sound":
            raise VouchError(f"{given.log}: the audit says `{audit}`")

    def judge(self) -> List[Tuple[str, str]]:
        """What each link is called, and what is said of it.

        Raises:
            JournalError, OSError, RecordError, VouchError, program.ProgramError: A file is not
                there or not right.
        """
        given, pieces = self._given, _read_pieces(self._given)
        links = dict(zip(self._words, self._links()))
        if given.seat is not None and given.seat not in self._words:
            raise VouchError(f"{given.game} has no seat {given.seat}")
        if given.publish:
            _publish(given.publish, links)
        if not given.mine:
            return [(word, self._audit(link)) for word, link in links.items()]
        for word, own in pieces.items():
            if len(own) > 1 and word in self._words and not links:
                raise VouchError(PIECES.format(word, len(own)))
        return [(word if len(own) > 1 and word else own[0].name,
                 self._of_pieces(word, own, links.get(word))) for word, own in pieces.items()]

    def _audit(self, link: LinkBytes) -> str:
        """What `tac vouch` says of a link."""
        said = audit_link(link, self._given.game, self._given.log, self._form, self._folder)
        if self._form == "words" and not is_vouched(said) and b"\n{" in link.asked:
            self.hint = "the lines look like JSON objects: try --json"
        return said

    def _links(self) -> List[LinkBytes]:
        """The bytes of the lobby's link of each seat, by the journal or as they were published;
        none if neither is given."""
        journal, published = self._given.journal, self._given.published
        if published:
            return [read_piece(published / word).link for word in self._words]
        if not journal:
            return []
        reader = read_journal(journal)
        if reader.text != self._text:
            raise VouchError(f"{journal} is not the journal of the game {self._given.game}")
        if not reader.has_begun:
            raise VouchError(f"{journal}: the game had not begun")
        self._form = reader.form
        return server_links(journal)

    def _of_pieces(self, word: str, pieces: List[Piece], link: Optional[LinkBytes]) -> str:
        """What is said of the records of a seat."""
        if len(pieces) == 1:
            return self._audit(pieces[0].link)
        if link is None:
            return "unvouched seat"
        said = self._audit(link)
        if not is_vouched(said):
            return f"the seat's link: {said}"
        difference = first_difference(pieces, link, welcome(self._text, self._words.index(word)))
        if difference is not None:
            return f"unvouched: {difference.where}: {difference.what}"
        return f"{said}, {len(pieces)} records"


def _read_pieces(given: argparse.Namespace) -> Dict[str, List[Piece]]:
    """The records by the words of their seats, in their order."""
    found: Dict[str, List[Piece]] = {}
    for mine in given.mine:
        for stem in stems_of(mine):
            piece = read_piece(stem)
            piece = piece if given.seat is None else piece.named(given.seat)
            found.setdefault(piece.word, []).append(piece)
    return found


def _publish(folder: Path, links: Dict[str, LinkBytes]) -> None:
    """Writes the bytes of the lobby's links into a new folder.

    Raises:
        OSError: The disk takes no more, for instance.
        VouchError: The folder has files.
    """
    folder.mkdir(parents=True, exist_ok=True)
    if any(folder.iterdir()):
        raise VouchError(f"{folder} is not empty: name a new folder")
    for word, link in links.items():
        for suffix, data in zip((ASKED, SAID), link):
            file = Output(folder / f"{word}{suffix}")
            file.write(data)
            file.close()
            if file.fault is not None:
                raise VouchError(f"{file.name}: {file.fault}")


def _main() -> int:
    given = _arguments()
    with Children() as children:
        judge = _Judge(given, children.folder("vouch"))
        found = judge.judge()
    count = sum(is_vouched(said) for _, said in found)
    lines = [*map(": ".join, found), f"vouched: {count} of {len(found)}"]
    output = Output(1)
    if not output.write("".join(f"{line}\n" for line in lines)):
        tell(f"vouch: {output.name}: {output.fault}")
        return 1
    if judge.hint:
        tell(f"vouch: {judge.hint}")
    return 0 if count == len(found) else 1


def main() -> int:
    """The command `vouch`."""
    return command("vouch", _main)
