"""Makes the log of a game from the journal that the lobby wrote, even if the
lobby was killed.

It turns the journal into a game script, and has `tac play` play it, as if no
agent had asked anything after the last known call. It leaves out a request
that had no reply yet, unless the replies of others show that it was made. For
the other requests the journal does not show whether they were made: with
--pending they come after all others, and each score that this changes is
reported.

It reports each reply that differs from the answer of `tac play`; the exit
status is then 1. It places readings of cash near where they were, and does not
compare them.
"""

from __future__ import annotations

import argparse
from pathlib import Path

from geesefuton import program
from geesefuton.arguments import Parser
from geesefuton.hosting.journal import JournalReader, read_journal
from geesefuton.hosting.recovery import Player, Recovery, RecoveryError
from geesefuton.processes import Children, Output, command, tell
from geesefuton.records.games import TICKS
from geesefuton.records.logs import read_scores


def _arguments() -> argparse.Namespace:
    parser = Parser("recover", __doc__)
    add = parser.add_argument
    add("journal", type=Path, help="the lobby's journal")
    add("--pending", action="store_true", help="also make the requests without a reply")
    add("--script", type=Path, metavar="FILE", help="also write the script to this file")
    add("--game", type=Path, metavar="FILE", help="also write the game file to this file")
    return parser.parse_args()


def _summary(reader: JournalReader) -> str:
    assert reader.game is not None
    calls = sum(call.asked.keyword != "quote" for call in reader.calls)
    if reader.status in (program.OK, program.CLOCK):
        return f"the game was played to its end; {calls} calls"
    if not reader.has_begun:
        return "the game had not begun"
    ends = "the journal ends" if reader.status is None else f"the server failed ({reader.status})"
    return (f"{ends} after tick {reader.tick} of {TICKS}; {calls} calls; the scores assume that "
            "nobody asks anything more")


def _tell_pending(reader: JournalReader, recovery: Recovery, player: Player, log: str) -> None:
    """Tells which requests without a reply are in the log, and what the others would change."""
    assert reader.game is not None
    words = reader.game.words
    for calls, what in ((recovery.made, "in the log"), (recovery.left, "left out")):
        for call in calls:
            tell(f"  without a reply, {what}: {words[call.agent]}: {call.asked.text}")
    if not recovery.left:
        return
    other, _ = Recovery(reader, player, pending=True).log()
    changed = [f"{word} {there.score - here.score:+}"
               for word, here, there in zip(words, read_scores(log), read_scores(other))
               if here.score != there.score]
    tell("  the journal does not show whether those left out were made; with them (--pending) "
         + (f"scores change: {', '.join(changed)}" if changed else "no score changes"))


def _main() -> int:
    given = _arguments()
    reader = read_journal(given.journal)
    with Children() as children:
        player = Player(children.folder("recover"), None)  # somebody waits for it
        try:
            recovery = Recovery(reader, player, given.pending)
            log, faults = recovery.log()
            tell(_summary(reader))
            _tell_pending(reader, recovery, player, log)
        except RecoveryError as fault:
            raise RecoveryError(f"{given.journal}: {fault}") from None
        for line in faults:
            tell(f"! {line}")
        outputs = [(Output(1), log)]
        outputs += [(Output(file), text) for file, text in (
            (given.script, recovery.script().text), (given.game, reader.text)) if file]
    is_whole = True
    for output, text in outputs:
        output.write(text)
        output.close()
        if output.fault is not None:
            tell(f"recover: {output.name}: {output.fault}")
            is_whole = False
    return 0 if is_whole and not faults else 1


def main() -> int:
    """The command `recover`."""
    return command("recover", _main)
