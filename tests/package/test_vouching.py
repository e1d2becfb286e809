"""The plain reading of one link, and `tac vouch`, which says the same of each record here: records
that are right, and the same with one thing changed."""

import re
import tempfile
from functools import lru_cache
from pathlib import Path
from typing import Optional, Sequence, Tuple, Union
from unittest import mock

from geesefuton.records.games import read_game
from geesefuton.records.logs import read_log
from tests.package.helpers import Case, needs_program
from tests.support import made_records as records, vouching as reading
from tests.support.judging import Judge
from tests.support.made_records import (CAUSES, WELCOME, changed, doubled, swapped, text_of,
                                        without)

HELLO = 1  # lines before those of the session
LINES = ["own 16", "quote 10", "bid 0 ((1 500))", "cash", "bid 10 ((2 90))", "bid 28 ((1 1))",
         "quote 10", "buy 5", "bid 16 ((2 60))", "x" * 513, "own 0", "bid 3 ((0 1))", "withdraw 5",
         "cash", "quote 16", "bid 10 ((1 50))", "own 4", "quit"]
Due = Union[int, str]  # what is said of a record, or the number of its first line that differs


@lru_cache(maxsize=None)
def played(script: Tuple[str, ...]) -> records.Played:
    """What a script leads to."""
    with tempfile.TemporaryDirectory() as folder:
        return records.play(Path(folder), script)


class Record(Case):
    """A played game, and what is said of an agent's record of it."""

    script: Sequence[str] = ()
    agent = 2
    form = "words"

    def setUp(self) -> None:
        super().setUp()
        self.played = played(tuple(self.script))
        self.asked, self.said = self.played.asked[self.agent], self.played.said[self.agent]
        (self.place / "game").write_text(self.played.game)
        self.judge_of = lru_cache(maxsize=None)(lambda log, form: Judge(
            self.place / "game", log.encode(), form))

    @property
    def count(self) -> int:
        """How many lines the session has."""
        return len(self.asked) - HELLO

    def check(self, due: Due, asked: Optional[Sequence[str]] = None,
              said: Optional[Sequence[str]] = None, log: str = "", form: str = "") -> None:
        """Both readings say this of the record, or of one with other lines, by the log or another
        one."""
        judge: Judge = self.judge_of(log or self.played.log, form or self.form)
        told = judge.said_of(text_of(self.asked if asked is None else asked),
                             text_of(self.said if said is None else said))
        self.assertEqual(judge.wrong, [])
        self.assertEqual(told, f"unvouched line {due}" if isinstance(due, int) else due,
                         (asked, said))

    def read(self, asked: bytes, said: bytes, log: str = "") -> str:
        """What the plain reading alone says of bytes."""
        boards = reading.Boards(read_game(self.played.game), read_log(log or self.played.log))
        return reading.vouching(boards, asked, said)

    def ended(self, cause: str) -> str:
        """The log with another cause of the end of the agent's session."""
        return re.sub(f"(?m)^end {self.agent} .*", f"end {self.agent} {cause}", self.played.log)

    def left_by(self, number: int) -> Optional[Tuple[int, int]]:
        """The good, 28 for cash, and the position that the line of a number left in the log, by its
        reply; None if it left nothing."""
        line, reply = self.asked[number], self.said[WELCOME - HELLO + number]
        if line.startswith("quote") or not reply.startswith("@"):
            return None
        good = 28 if line == "cash" else int(line.split()[1])
        return good, int(reply[1:].split()[0])

    def lowest_from(self, number: int) -> str:
        """How the lowest entry is told that the lines from this number on left."""
        left = [self.left_by(each) for each in range(number, self.count + 1)]
        good, at = min(each for each in left if each)
        return f"unvouched cash {at}" if good == 28 else f"unvouched entry {good} {at}"


class AllLines(Record):
    """Agent 2 buys a seat and two tickets of agent 5, and asks all there is. Hotel 10 has live
    quotes."""

    script = ["5 bid 16 ((-1 50) (-1 40))", *(f"2 {line}" for line in LINES[:7]), "tick",
              "1 own 16", "7 own 16", *(f"2 {line}" for line in LINES[7:] if len(line) < 513)]

    def setUp(self) -> None:
        super().setUp()
        # No script has a line that is too long.
        self.asked = [*self.asked[:HELLO + 9], LINES[9], *self.asked[HELLO + 9:]]
        self.said = [*self.said[:WELCOME + 9], "no toolong", *self.said[WELCOME + 9:]]


@needs_program
class OneAgent(AllLines):
    def test_whole_links(self) -> None:
        self.assertEqual(self.asked[HELLO:], LINES)
        log = read_log(self.played.log)
        self.assertEqual([entry.caller for good in (0, 16) for entry in log.histories[good]
                          if entry.trades], [2, 2])
        self.check(f"vouched 2 whole {len(LINES)}")
        for seat in (0, 1, 5, 7):
            asked, said = self.played.asked[seat], self.played.said[seat]
            self.check(f"vouched {seat} whole {len(asked) - HELLO}", asked, said)

    def test_replies_that_did_not_come_and_lines_that_were_not_asked(self) -> None:
        for count in range(self.count):
            asked, said = self.asked[:HELLO + count], self.said[:WELCOME + count]
            left = sum(self.left_by(number) is not None
                       for number in range(count + 1, self.count + 1))
            self.check(f"vouched 2 cut {count} {left}", said=said)
            self.check(count + 1, asked)
            self.check("unvouched cause" if count + 1 == self.count else
                       self.lowest_from(count + 1), asked, said)

    def test_half_lines_are_not_compared(self) -> None:
        for count, cause in ((self.count - 1, "end"), (self.count, "quit")):
            whole = text_of(self.asked[:HELLO + count]), text_of(self.said[:WELCOME + count])
            for asked, said in ((b"", b""), (b"own 0", b""), (b"", b"@9"), (b"quit", b"\xff")):
                due = f"cut {count} 0" if said else f"whole {count}"
                self.assertEqual(self.read(whole[0] + asked, whole[1] + said, self.ended(cause)),
                                 f"vouched 2 {due}")

    def test_a_line_or_a_reply_that_is_changed_dropped_doubled_or_swapped(self) -> None:
        for number in range(1, self.count + 1):
            place, line = WELCOME - HELLO + number, self.asked[number]
            reply = self.said[place]
            replies = [reply + " ", reply[:-1], reply.upper(), ""]
            if self.left_by(number):
                replies.append(re.sub("[0-9]+", lambda at: str(int(at[0]) + 1), reply, count=1))
            for other in replies:
                self.check(number, said=changed(self.said, place, other))
            for other in ("own 27", "quote 0", "withdraw 27", "bid 27 ((1 9))",
                          *["sell 3"] * (line != "buy 5")):
                self.check(number, changed(self.asked, number, other))
            for change, due in ((without, number), (doubled, number + 1), (swapped, number)
                                ) if number < self.count else ():
                self.check(due, change(self.asked, number))
                self.check(due, said=change(self.said, place))

    def test_what_comes_behind_the_end(self) -> None:
        due = self.count + 1
        self.check(f"vouched 2 whole {self.count}", self.asked + ["own 3", "quit"])
        self.check(due, said=self.said + ["bye"])
        self.check(due, self.asked + ["own 3"], self.said + ["@0 own 0 ()"])
        # A line behind `quit` is not taken for one that was asked.
        asked, said = self.asked[:HELLO + 3] + ["quit"], self.said[:WELCOME + 3] + ["bye"]
        more = asked + self.asked[HELLO + 3:]
        for record in ((asked, said), (more, said), (more, said[:-1])):
            self.check(self.lowest_from(4), *record)

    def test_a_cause_that_the_record_does_not_allow(self) -> None:
        unquit, unsaid = self.asked[:-1], self.said[:-1]
        whole, cut = f"vouched 2 whole {self.count - 1}", f"vouched 2 cut {self.count - 1} 0"
        wrong = "unvouched cause"
        for cause, answered, unanswered, unasked in zip(
                CAUSES, (f"vouched 2 whole {self.count}", wrong, wrong, wrong, wrong),
                (cut, cut, cut, cut, wrong), (wrong, whole, whole, wrong, wrong)):
            log = self.ended(cause)
            self.check(answered, log=log)
            self.check(unanswered, said=unsaid, log=log)
            self.check(unasked, unquit, unsaid, log)
        # What comes first is told, and a budget of 65,536 lines may be used up.
        self.check(self.lowest_from(self.count - 1), unquit[:-1], unsaid[:-1], log)
        many = unquit + ["own 3"] * (65_536 - len(unquit))
        self.check(wrong, many, unsaid, log)
        self.check(cut, [*many, "own 3"], unsaid, log)
        # Any of the lines without a reply may be `quit`.
        self.check(cut, [*unquit, "own 3", "quit"], unsaid)
        self.check(wrong, [*unquit, "own 3", "quit "], unsaid)

    def test_another_greeting_or_welcome_and_a_log_that_seats_somebody_else(self) -> None:
        for first in ("hello seat9", "hello", " hello seat2", "hello seat2 ", "hello  seat2",
                      "HELLO seat2", "hello seat2\r", "own 16"):
            self.check("unvouched seat", [first, *self.asked[1:]])
        self.check("unvouched seat", [])
        self.check("unvouched welcome", ["hello seat3", *self.asked[1:]])
        for place in range(WELCOME):
            for said in (without(self.said, place), changed(self.said, place, "welcome 3"),
                         self.said[:place], doubled(self.said, place)):
                is_reply = len(said) > len(self.said) and place == WELCOME - 1
                self.check(1 if is_reply else "unvouched welcome", said=said)
        for head, other in ((r"link (\d+) seated 2\n", r"link \1 lost\n"),
                            (r"link (\d+) seated 2\n", r"link \1 seated 3\n"),
                            ("serve\n(link .*\n|end .*\n|missed .*\n)*", "play\n")):
            log = re.sub(head, other, self.played.log)
            self.assertEqual(self.read(text_of(self.asked), text_of(self.said), log),
                             "unvouched seat")

    def test_the_command_of_the_plain_reading(self) -> None:
        game, log, asked, said = (self.place / name for name in ("game", "log", "asked", "said"))
        log.write_text(self.played.log)

        def told(*words: str) -> Tuple[int, str]:
            with mock.patch("sys.argv", ["vouching", *map(str, (game, log, asked, said)), *words]
                            ), mock.patch("builtins.print") as printed:
                return reading.main(), "\n".join(each.args[0] for each in printed.mock_calls)

        record = records.Record(self.asked, self.said, [])
        for form, lines in (("words", record), ("json", records.in_json(record))):
            asked.write_bytes(text_of(lines.asked))
            said.write_bytes(text_of(lines.said))
            self.assertEqual(told(form), (0, f"vouched 2 whole {self.count}"))
            said.write_bytes(said.read_bytes()[:-2])
            self.assertEqual(told(form), (0, f"vouched 2 cut {self.count - 1} 0"))
        self.assertEqual(told(), (9, "unvouched line 1"))
        asked.unlink()
        self.assertEqual(told(), (3, "fault read"))
        for text, due in ((self.played.log.replace("missed 0", "missed 60"), (9, "unsound head")),
                          ("no log", (8, "text 1 1"))):
            log.write_text(text)
            self.assertEqual(told(), due)


@needs_program
class OtherLogs(Record):
    """Logs that are sound, and have one thing otherwise."""

    script = ["0 own 3", "2 own 3", "2 own 3", "1 own 3", "2 cash", "2 bid 0 ((1 500))",
              "2 bid 1 ((1 500))", "2 cash", "2 cash", "2 own 9", "2 own 8"]

    def check_log(self, due: Due, old: str, new: str) -> None:
        """What is said if the log has a text in place of another, and mended numbers of entries."""
        self.assertEqual(self.played.log.count(old), 1, old)
        log = "\n".join(records.mended(self.played.log.replace(old, new).split("\n")))
        self.assertEqual(self.judge_of(log, "words").verdict, "sound")
        self.check(due, log=log)

    def test_entries_posts_and_readings(self) -> None:
        whole = f"vouched 2 whole {self.count}"
        self.check(whole)
        history = "0 own = own 0 ()\n2 own = own 0 ()\n2 own = own 0 ()\n1 own = own 0 ()\n"
        own = "2 own = own 0 ()\n"
        rows: Sequence[Tuple[str, Due]] = (
            (history.replace(own, "", 1), 2), (history.replace(own + own, ""), 1),
            (history.replace(own, own + own, 1), "unvouched entry 3 3"),
            (history + own, "unvouched entry 3 4"),
            (history.replace("0 own = own 0 ()\n", ""), 1),
            (history.replace("1 own", "2 own"), "unvouched entry 3 3"),
            (history.replace(own, "7 own = own 0 ()\n", 1), 1),
            (history.replace("1 own", "4 own"), whole))
        for new, due in rows:
            self.check_log(due, "auction 3 58\n" + history, "auction 3 58\n" + new)
        cash = self.played.log.split("\ncash 5\n")[1].split("\nsheet\n")[0].split("\n")
        self.assertEqual([line.split()[1] for line in cash],
                         ["read", "post", "post", "read", "read"])
        books: Sequence[Tuple[Sequence[int], Due]] = (
            ([0, 2, 1, 3, 4], 4), ([0, 1, 2, 3], 7), ([1, 2, 3, 4], 3),
            ([0, 1, 2, 3, 4, 4], "unvouched cash 5"), ([0, 0, 1, 2, 3, 4], 4))
        for order, due in books:
            self.check_log(due, "\n".join(cash), "\n".join(cash[place] for place in order))


@needs_program
class Quotes(Record):
    """A quote may show any prefix that is not behind what was answered before."""

    agent = 0

    script = ["0 quote 8", "1 bid 8 ((3 50))", "1 own 8", "1 own 8", "0 quote 8", "0 own 8",
              "0 quote 8"]

    def test_which_boards_there_are(self) -> None:
        shown = self.said[WELCOME:]
        self.assertEqual(shown, ["@0 quote 0 0 open", "@3 quote 0 50 open", "@3 own 0 ()",
                                 "@4 quote 0 50 open"])
        fine, last = "vouched 0 whole 4", 13
        rows: Sequence[Tuple[int, str, Due]] = (
            (0, "@1 quote 0 50 open", fine), (0, "@3 quote 0 50 open", fine),
            (0, "@4 quote 0 50 open", 2), (0, "@1 quote 0 0 open", 1),
            (0, "@0 quote 0 50 open", 1), (0, "@00 quote 0 0 open", 1),
            (1, "@0 quote 0 0 open", fine), (1, "@2 quote 0 50 open", fine),
            (1, "@4 quote 0 50 open", 3), (1, "@3 quote 0 50 closed", 2),
            (3, "@3 quote 0 50 open", 4), (3, f"@{last} quote 0 50 open", 4))
        for place, reply, due in rows:
            self.check(due, said=changed(self.said, WELCOME + place, reply))
        for count in (0, 1):  # one whose reply did not come may have shown any
            self.check(f"vouched 0 cut {count} 1", said=self.said[:WELCOME + count])

    def test_all_boards_of_a_closed_game(self) -> None:
        log = read_log(self.played.log)
        boards = reading.Boards(read_game(self.played.game), log).of(8)
        self.assertEqual((boards[0], boards[-1]), ((0, 0, False), (0, 50, True)))
        self.assertEqual(len(boards), len(log.histories[8]) + 1)


@needs_program
class Limits(Record):
    agent = 4

    script = ["4 own 9"] * 1026 + ["4 cash"] * 1026 + ["4 own 10", "4 withdraw 9"]

    def test_calls_and_readings_that_are_used_up(self) -> None:
        self.assertEqual(self.said[WELCOME + 1023:WELCOME + 1026],
                         ["@1023 own 0 ()", "no spent", "no spent"])
        self.check(f"vouched 4 whole {self.count}")
        self.check("vouched 4 cut 1020 1029", said=self.said[:WELCOME + 1020])
        self.check(1026, said=without(self.said, WELCOME + 1024))

    def test_lines_that_are_used_up(self) -> None:
        asked, said = text_of(self.asked), text_of(self.said)
        with mock.patch.object(reading, "MOST_LINES", 1000):
            self.assertEqual(self.read(asked, said), "unvouched line 1001")
            self.assertEqual(self.read(asked, text_of(self.said[:WELCOME + 990])),
                             "unvouched entry 9 1000")
        # Then its lines or its bytes are used up, and no other cause is right.
        with mock.patch.object(reading, "MOST_LINES", self.count):
            for cause in CAUSES:
                self.assertEqual(self.read(asked + b"quit\n", said, self.ended(cause)),
                                 f"vouched 4 cut {self.count} 0" if cause == "budget" else
                                 "unvouched cause", cause)


@needs_program
class Forms(AllLines):
    """The same record in JSON, and lines that ask nothing."""

    form = "json"

    def setUp(self) -> None:
        super().setUp()
        self.asked, self.said, _ = records.in_json(records.Record(self.asked, self.said, []))

    def test_a_whole_link_and_its_cuts(self) -> None:
        self.check(f"vouched 2 whole {self.count}")
        self.check("vouched 2 cut 9 5", said=self.said[:WELCOME + 9])
        self.check(1, form="words")
        spaced = [line.replace(",", ", ") + "\r" for line in self.asked[HELLO:]]
        self.check(f"vouched 2 whole {self.count}", self.asked[:HELLO] + spaced)

    def test_a_line_for_which_there_was_no_memory(self) -> None:
        for place in range(self.count):
            asked = doubled(self.asked, HELLO + place)
            said = [*self.said[:WELCOME + place], '{"no":"memory"}', *self.said[WELCOME + place:]]
            self.check(place + 1 if len(asked[HELLO + place]) > 512 else
                       f"vouched 2 whole {self.count + 1} memory 1", asked, said)
        # Without a reply no line is passed over.
        self.check("unvouched entry 0 0", doubled(self.asked, HELLO), self.said[:WELCOME])

    def test_faults_of_lines(self) -> None:
        one = "(1 1)"
        for line, due in (
                ("bid 28 x", "no auction"), ("own 99999", "no auction"), ("bid 5", "no syntax"),
                ("own 05", "no syntax"), ("own 100000", "no syntax"), ("quit ", "no syntax"),
                ("", "no syntax"), ("bid 5 ", "no bid 1"), ("bid 5 ((01 5))", "no bid 1"),
                ("bid 5 ((1  5))", "no bid 1"), ("bid 5 ()", "no bid 1"),
                ("bid 5 ((-0 5))", "no bid 1"), ("bid 5 ((1 0))", "no bid 4"),
                ("bid 5 ((0 10001))", "no bid 5"), ("bid 5 ((9 1) (-8 2))", "no bid 3"),
                (f"bid 5 ({' '.join([one] * 17)})", "no bid 2"),
                (f"bid 5 ({' '.join([one] * 16)} (0 0))", "no bid 2"), ("x" * 512, "no syntax"),
                ("x" * 513, "no toolong")):
            self.assertEqual(reading.asked_by(line.encode(), "words"), due, line)
        for line, due in (('{"do":"bid","auction":5,"points":[]}', "no bid 1"),
                          ('{"do":"bid","auction":28,"points":7}', "no auction"),
                          ('{"do":"own","auction":1.0}', "no syntax"), ("[", "no syntax"),
                          ('{"do":"bid","auction":5,"points":[[0,1]]}', "no bid 5")):
            self.assertEqual(reading.asked_by(line.encode(), "json"), due, line)
