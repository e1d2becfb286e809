"""The command that says whether a log is right about links, by a stand-in for the program; and the
records of an agent that reconnected, joined by the bytes of its seat's link."""

import itertools
import json
import os
import random
import subprocess
import unittest
from pathlib import Path
from typing import List, Optional, Sequence, Tuple
from unittest import mock

from geesefuton import program
from geesefuton.hosting.pieces import (Difference, Piece, RecordError, first_difference, read_piece,
                                       stems_of)
from geesefuton.hosting.server_links import LinkBytes
from geesefuton.processes import Output
from geesefuton.records.games import welcome
from tests.package.cases import FolderCase
from tests.package.helpers import COMMAND, DATA, refusal, variables
from tests.package.journals import GAME, HEAD, HEADED, asks, told

FAKE = Path(__file__).resolve().parent / "fake_tac.py"
WORDS = GAME.words
RED = WORDS[3]
LINES = ["own 16", "quote 8", "cash"]
REPLIES = ["@0 own 1 ()", "@0 quote 0 0 open", "@0 cash 0"]
WELCOME = b"".join(b"welcome %d\n" % number for number in range(10))


class Vouch(FolderCase):
    """A game, a log, and a journal in which one agent asks some lines.

    Attributes:
        said: What is said of the links of some seats.
        forms: The forms in which links were judged.
    """

    def setUp(self) -> None:
        super().setUp()
        self.game, self.log = self.folder / "my.game", self.folder / "my.log"
        self.mine, self.output = self.folder / "mine", self.folder / "output"
        self.game.write_text("# a comment\n" + GAME.text())
        self.log.write_text("a log")
        self.journal = self.folder / "my.journal"
        self.write_journal(LINES, REPLIES)
        self.audit, self.said, self.forms = "sound", {8: "unvouched seat"}, list[str]()
        self.patch("program.show", lambda game: GAME.text())
        self.patch("program.audit", lambda game, log: self.audit)
        self.patch("program.vouch", self.stand_in)

    def stand_in(self, game: Path, log: Path, asked: Path, said: Path, form: str,
                 timeout: None) -> str:
        """Stands for `tac vouch`: it vouches for each link whose seat is not in `said`."""
        lines, replies = (file.read_bytes().split(b"\n")[:-1] for file in (asked, said))
        word = lines[0].decode()[6:]
        seat = WORDS.index(word) if word in WORDS else 8
        counts = len(lines) - 1, len(replies) - 10
        self.forms.append(form)
        if seat in self.said:
            return self.said[seat]
        kind = "whole" if counts[0] == counts[1] else "cut"
        return f"vouched {seat} {kind} {counts[1]}" + " 0" * (kind == "cut")

    def write_journal(self, lines: Sequence[str], replies: Sequence[str], form: str = "words",
                      text: str = GAME.text()) -> None:
        """A journal in which the agent of seat 3 asks lines, and gets replies."""
        told_of = [json.dumps({**HEAD, "game": text, "form": form}), *HEADED[1:]]
        for number, line in enumerate(lines):
            told_of.append(asks(3, line))
            told_of += [told(3, replies[number])] if number < len(replies) else []
        self.journal.write_text("".join(f"{line}\n" for line in told_of))

    def record_pieces(self, name: str = "red7k", word: str = RED) -> None:
        """Writes two records, of which none has the whole session."""
        self.record(name, LINES[:2], REPLIES[:1], word)
        self.record(f"{name}.2", LINES[2:], REPLIES[2:], word)

    def record(self, name: str, lines: Sequence[str], replies: Sequence[str],
               word: str = RED) -> None:
        self.mine.mkdir(exist_ok=True)
        asked = "".join(f"{line}\n" for line in [f"hello {word}", *lines])
        said = welcome(GAME.text(), 3).decode() + "".join(f"{line}\n" for line in replies)
        (self.mine / f"{name}.asked").write_text(asked)
        (self.mine / f"{name}.said").write_text(said)

    def vouch(self, *words: object) -> Tuple[int, List[str], str]:
        """Runs the command: its status, the lines that it prints, and what it tells."""
        self.output.unlink(missing_ok=True)
        with mock.patch("geesefuton.hosting.vouch_command.Output",
                        lambda target: Output(self.output if target == 1 else target)):
            status, text = refusal("hosting.vouch_command", self.game, self.log, *words)
        printed = self.output.read_text().splitlines() if self.output.exists() else []
        return status, printed, text

    EACH = [f"{word}: vouched {seat} whole {3 * (seat == 3)}" for seat, word in enumerate(WORDS)]

    def test_the_links_of_a_journal(self) -> None:
        self.assertEqual(self.vouch("--journal", self.journal),
                         (0, [*self.EACH, "vouched: 8 of 8"], ""))
        self.said[5] = "unvouched line 7"
        status, printed, text = self.vouch("--journal", self.journal)
        self.assertEqual((status, printed[5], printed[-1], text),
                         (1, f"{WORDS[5]}: unvouched line 7", "vouched: 7 of 8", ""))

    def test_what_is_published_says_the_same(self) -> None:
        published = self.folder / "new" / "published"
        self.assertEqual(self.vouch("--journal", self.journal, "--publish", published)[0], 0)
        self.assertEqual(sorted(file.name for file in published.iterdir()),
                         sorted(f"{word}{end}" for word in WORDS for end in (".asked", ".said")))
        self.assertEqual((published / f"{RED}.asked").read_text(),
                         f"hello {RED}\n" + "\n".join(LINES) + "\n")
        for words in (["--published", published], [published]):
            status, printed, text = self.vouch(*words)
            self.assertEqual((status, sorted(printed), text),
                             (0, sorted([*self.EACH, "vouched: 8 of 8"]), ""))

    def test_one_record(self) -> None:
        self.record("red7k", LINES, REPLIES[:2])
        for mine in (self.mine, self.mine / "red7k", self.mine / "red7k.said"):
            for more in ([], ["--journal", self.journal]):
                self.assertEqual(self.vouch(mine, *more),
                                 (0, ["red7k: vouched 3 cut 2 0", "vouched: 1 of 1"], ""))
        self.said[3] = "unvouched welcome"
        self.assertEqual(self.vouch(self.mine),
                         (1, ["red7k: unvouched welcome", "vouched: 0 of 1"], ""))
        self.record("b", [], [], WORDS[4])  # and those of several seats
        self.assertEqual(self.vouch(self.mine)[1], ["b: vouched 4 whole 0",
                                                    "red7k: unvouched welcome", "vouched: 1 of 2"])

    def test_pieces_are_joined(self) -> None:
        self.record_pieces()
        self.assertEqual(self.vouch(self.mine), (1, [], (
            f"vouch: {RED} has 2 records, none of the whole session: add --published FOLDER or "
            "--journal J\n")))
        published = self.folder / "published"
        self.vouch("--journal", self.journal, "--publish", published)
        for words in (["--journal", self.journal], ["--published", published]):
            self.assertEqual(self.vouch(self.mine, *words),
                             (0, [f"{RED}: vouched 3 whole 3, 2 records", "vouched: 1 of 1"], ""))
        self.said[3] = "unvouched cash 5"
        self.assertEqual(self.vouch(self.mine, "--journal", self.journal),
                         (1, [f"{RED}: the seat's link: unvouched cash 5", "vouched: 0 of 1"], ""))
        del self.said[3]
        self.write_journal(["own 16", "quote 8", "own 5"], REPLIES)
        self.assertEqual(self.vouch(self.mine, "--journal", self.journal), (1, [
            f"{RED}: unvouched: red7k.2, line 1: the agent sent 'cash', the seat's link has "
            "'own 5'", "vouched: 0 of 1"], ""))

    def test_a_word_that_the_host_has_changed(self) -> None:
        self.record_pieces("secret", "secret")
        for words, due, printed in (
                ([self.mine, "--journal", self.journal, "--seat", RED], 0,
                 [f"{RED}: vouched 3 whole 3, 2 records", "vouched: 1 of 1"]),
                ([self.mine, "--journal", self.journal], 1,
                 ["secret: unvouched seat", "vouched: 0 of 1"]),
                ([self.mine / "secret", "--seat", RED], 0,
                 ["secret: vouched 3 cut 1 0", "vouched: 1 of 1"])):
            self.assertEqual(self.vouch(*words), (due, printed, ""))

    def test_lines_of_json(self) -> None:
        self.write_journal(['{"do":"cash"}'], ['{"at":0,"cash":0}'], "json")
        self.said[3] = "unvouched line 1"
        self.assertEqual(self.vouch("--journal", self.journal)[2], "")
        self.record("red7k", ['{"do":"cash"}'], ['{"at":0,"cash":0}'])
        self.assertEqual(self.vouch(self.mine, "--json")[2], "")
        self.assertEqual(self.vouch(self.mine)[2],
                         "vouch: the lines look like JSON objects: try --json\n")
        self.assertEqual(self.forms, ["json"] * 9 + ["words"])

    # What is refused.

    def refused(self, *words: object) -> str:
        """The one line that is told, without the command's name and the folder."""
        status, printed, text = self.vouch(*words)
        self.assertEqual((printed, text.count("\n"), text[:7]), ([], 1, "vouch: "), text)
        self.assertIn(status, (1, 2))
        return text[7:-1].replace(f"{self.folder}/", "")

    def test_words(self) -> None:
        for words, due in (
                ("", "give MINE, --journal or --published"),
                ("--publish x", "--publish needs --journal"),
                ("--journal x --published y", "give --journal or --published, not both"),
                ("--journal x --seat y", "--seat needs MINE")):
            self.assertEqual(self.refused(*words.split()), f"{due} (see --help)")

    def test_files_that_are_not_there(self) -> None:
        absent = "No such file or directory"
        self.record("red7k", LINES, REPLIES)
        none, said = self.folder / "none", self.mine / "red7k.said"
        for gone, words, due in (
                (None, [none], "none.asked"), (None, ["--journal", none], "none"),
                (None, ["--published", none], f"none/{WORDS[0]}.asked"),
                (said, [self.mine], "mine/red7k.said"),
                (self.log, ["--journal", self.journal], "my.log"),
                (self.game, ["--journal", self.journal], "my.game")):
            if gone:
                gone.unlink()
            self.assertEqual(self.refused(*words), f"{due}: {absent}")

    def test_journals(self) -> None:
        self.write_journal(LINES, REPLIES, text=GAME.named([f"x{at}" for at in range(8)]).text())
        self.assertEqual(self.refused("--journal", self.journal),
                         "my.journal is not the journal of the game my.game")
        self.journal.write_text(json.dumps(HEAD) + "\n")
        self.assertEqual(self.refused("--journal", self.journal),
                         "my.journal: the game had not begun")
        for text in ("", "x\n"):
            self.journal.write_text(text)
            self.assertIn("not a journal line" if text else "lacks the first line",
                          self.refused("--journal", self.journal))

    def test_records_seats_and_folders(self) -> None:
        self.mine.mkdir()
        self.assertEqual(self.refused(self.mine),
                         "mine has no records (files WORD.asked and WORD.said)")
        self.record("red7k", LINES, REPLIES)
        self.assertEqual(self.refused(self.mine, "--seat", "none"), "my.game has no seat none")
        self.assertEqual(self.refused("--journal", self.journal, "--publish", self.mine),
                         "mine is not empty: name a new folder")
        for side in ("said", "asked"):
            (self.mine / f"red7k.{side}").write_text("")
            self.assertEqual(self.refused(self.mine), f"mine/red7k.{side} has no complete line, "
                             "so it is not a record of a link")

    def test_a_log_that_is_not_sound_and_a_program_that_fails(self) -> None:
        self.audit = "unsound score 0"
        self.assertEqual(self.refused("--journal", self.journal),
                         "my.log: the audit says `unsound score 0`")
        self.audit = "sound"
        self.patch("program.vouch", side_effect=program.ended("vouch", 7, "memory"))
        self.assertEqual(self.refused("--journal", self.journal),
                         "tac vouch ended with exit status 7 (memory was refused: memory)")

    @unittest.skipUnless(os.path.exists("/dev/full"), "there is no file that takes nothing")
    def test_full_disks(self) -> None:
        for full, words in ((1, ()), (2, ("--publish", self.folder / "full"))):
            with mock.patch("geesefuton.hosting.vouch_command.Output",
                            lambda target: Output("/dev/full" if (target == 1) == (full == 1)
                                                  else os.devnull)):
                status, text = refusal("hosting.vouch_command", self.game, self.log, "--journal",
                                       self.journal, *words)
            self.assertEqual((status, text), (1, "vouch: /dev/full: No space left on device\n"))


class Whole(FolderCase):
    def test_the_kept_journal(self) -> None:
        """By the command in a process of its own, which leaves nothing behind."""
        game = self.folder / "my.game"
        game.write_text(GAME.text())
        with open("/dev/full", "w", encoding="ascii") as full:
            for output, due in ((subprocess.PIPE, (0, "")), (full, (
                    1, "vouch: standard output: No space left on device\n"))):
                done = subprocess.run(
                    [*COMMAND, "vouch", game, game, "--journal",
                     DATA / "lobby.journal"], check=False, stdout=output, stderr=subprocess.PIPE,
                    text=True, env=variables({"TAC": str(FAKE), "TMPDIR": str(self.folder)}))
                self.assertEqual((done.returncode, done.stderr), due)
                self.assertEqual([*self.folder.iterdir()], [game])
                if done.stdout:
                    self.assertEqual(done.stdout.splitlines()[-1], "vouched: 8 of 8")


def link(lines: Sequence[str], replies: Sequence[str], welcome: bytes = WELCOME) -> LinkBytes:
    asked, said = (b"".join(line.encode("latin-1") + b"\n" for line in each)
                   for each in (lines, replies))
    return LinkBytes(b"hello red7k\n" + asked, welcome + said)


def pieces(*each: Tuple[Sequence[str], Sequence[str]]) -> List[Piece]:
    """The pieces red, red.2, red.3 .. with these lines and replies."""
    return [Piece(f"red.{number}" if number > 1 else "red", link(*lines))
            for number, lines in enumerate(each, 1)]


class Joined(unittest.TestCase):
    def differ(self, whole: LinkBytes, *each: Tuple[Sequence[str], Sequence[str]]) -> str:
        """Where the pieces with these lines and replies differ from a link; "" if they do not."""
        found = first_difference(pieces(*each), whole, WELCOME)
        return found.where if found else ""

    def test_lines_with_replies_and_first_ones_of_those_without(self) -> None:
        first = (["a", "b", "c", "d"], ["1", "2"])
        second = (["e", "f"], ["5"])
        for more in range(3):
            for last in range(2):
                lines = ["a", "b", "c", "d"][:2 + more] + ["e", "f"][:1 + last]
                replies = ["1", "2", "x", "y"][:2 + more] + ["5", "z"][:1 + last]
                for missing in (0, last):  # the last reply may not have come to the lobby either
                    whole = link(lines, replies[:len(replies) - missing])
                    self.assertEqual(self.differ(whole, first, second), "", (more, last))

    def test_what_differs(self) -> None:
        first, second = (["a", "b", "c"], ["1", "2"]), (["e", "f"], ["5", "6"])
        good = ["a", "b", "c", "e", "f"], ["1", "2", "3", "5", "6"]
        self.assertEqual(self.differ(link(*good), first, second), "")
        for lines, replies, where in (
                ("xbcef", "12356", "red, line 1"), ("axcef", "12356", "red, line 2"),
                ("abxef", "12356", "red.2, line 1"), ("abcxf", "12356", "red.2, line 1"),
                ("abcex", "12356", "red.2, line 2"), ("abce", "1235", "red.2, line 2"),
                ("abcef", "12x56", ""), ("abcef", "1x356", "red, line 2"),
                ("abcef", "1235x", "red.2, line 2"), ("abcef", "1235", "red.2, line 2"),
                ("abcefg", "12356", "the seat's link, line 6"), ("bcef", "2356", "red, line 1"),
                ("acef", "1356", "red, line 2"), ("bacef", "21356", "red, line 1"),
                ("abef", "1256", ""), ("abccef", "123356", "red.2, line 1"),
                ("a", "1", "red, line 2"), ("", "", "red, line 1"),
                ("abcefg", "123567", "the seat's link, line 6")):
            self.assertEqual(self.differ(link(lines, replies), first, second), where, lines)

    def test_which_lines_were_passed_on_is_searched_for(self) -> None:
        """Neither as many as fit nor as few are right for all."""
        few = (["q", "q", "q"], []), (["q", "x"], ["7", "8"])
        self.assertEqual(self.differ(link("qx", "78"), *few), "")
        self.assertEqual(self.differ(link("qqqqx", "12378"), *few), "")
        self.assertEqual(self.differ(link("qqqqqx", "123778"), *few), "red.2, line 2")
        three = (["q", "q"], []), (["q", "q"], []), (["q"], ["9"])
        self.assertEqual([count for count in range(8)
                          if not self.differ(link("q" * count, "9" * count), *three)],
                         [1, 2, 3, 4, 5])

    def test_by_a_plain_search(self) -> None:
        dice = random.Random(5)
        joined = 0
        for _ in range(2000):
            each = []
            for _ in range(dice.randint(1, 3)):
                lines = dice.choices("ab", k=dice.randint(0, 4))
                each.append((lines, dice.choices("12", k=dice.randint(0, len(lines)))))
            lines = dice.choices("ab", k=dice.randint(0, 6))
            whole = (lines, dice.choices("12", k=len(lines)))
            due = plainly(each, whole)
            joined += due
            self.assertEqual(self.differ(link(*whole), *each) == "", due, (each, whole))
        self.assertGreater(joined, 100)

    def test_lines_that_are_too_long_or_have_no_end_and_replies_beyond_the_lines(self) -> None:
        for kept, due in ((513, ""), (512, "red, line 1")):
            self.assertEqual(self.differ(link(["x" * kept], ["no toolong"]),
                                         (["x" * 700], ["no toolong"])), due)
        asked, said = link(["a", "b"], ["1"])
        half = [Piece("red", LinkBytes(asked + b"own 2", said + b"@2"))]
        self.assertIsNone(first_difference(half, link(["a", "b"], ["1", "2"]), WELCOME))
        self.assertEqual(self.differ(link("ab", "12"), (["a"], ["1", "2"])), "red, line 2")

    def test_a_welcome(self) -> None:
        whole = link(["a"], ["1"])
        for welcome, is_due in ((WELCOME, True), (WELCOME[:-30], True), (b"", True),
                                (WELCOME.replace(b"3", b"4"), False), (b"welcome 1\n", False)):
            own = [Piece("red", link(["a"], [], welcome)), Piece("red.2", link([], []))]
            found = first_difference(own, whole, WELCOME)
            self.assertEqual(found is None, is_due, welcome)
        self.assertEqual(found, Difference("red, welcome",
                                           "it is not the welcome of this seat in this game"))

    def test_what_is_told(self) -> None:
        for lines, replies, due in (
                ("a", "1", "the seat's link does not have the line 'b'"),
                ("ax", "12", "the agent sent 'b', the seat's link has 'x'"),
                ("ab", "1", "the seat's link has no reply to 'b'"),
                ("ab", "13", "the agent got '2' for 'b', the seat's link has '3'"),
                ("abc", "123", "no record has 'c'")):
            found = first_difference(pieces(("ab", "12")), link(lines, replies), WELCOME)
            assert found is not None
            self.assertEqual(found.what, due)


def plainly(each: Sequence[Tuple[Sequence[str], Sequence[str]]],
            whole: Tuple[Sequence[str], Sequence[str]]) -> bool:
    """Whether pieces are a session, by trying all numbers of lines that were passed on."""
    choices = [range(len(replies), len(lines) + 1) for lines, replies in each]
    for counts in itertools.product(*choices):
        lines = [line for (own, _), count in zip(each, counts) for line in own[:count]]
        replies: List[Optional[str]] = []
        for (_, own), count in zip(each, counts):
            replies += [*own, *[None] * (count - len(own))]
        if lines == list(whole[0]) and all(mine in (None, other) for mine, other in
                                           zip(replies, whole[1])):
            return True
    return False


class Files(FolderCase):
    def write(self, *names: str) -> None:
        for name in names:
            (self.folder / name).write_bytes(b"hello red7k\n")

    def test_a_folder_has_its_records_in_their_order(self) -> None:
        names = ["red7k", "red7k.2", "red7k.10", "blue", "red7k.3"]
        self.write(*(f"{name}{suffix}" for name in names for suffix in (".asked", ".said")),
                   "notes.txt", "x.y.asked", "Blue.said")
        self.assertEqual([stem.name for stem in stems_of(self.folder)],
                         ["blue", "red7k", "red7k.2", "red7k.3", "red7k.10"])

    def test_a_record_by_its_stem_or_a_file_of_it(self) -> None:
        stem = self.folder / "red7k.2"
        for name in ("red7k.2", "red7k.2.asked", "red7k.2.said"):
            self.assertEqual(stems_of(self.folder / name), [stem])
        self.write("red7k.2.asked", "red7k.2.said")
        piece = read_piece(stem)
        self.assertEqual((piece.name, piece.word, piece.link.said),
                         ("red7k.2", "red7k", b"hello red7k\n"))
        self.assertEqual(piece.named("blue").link.asked, b"hello blue\n")

    def test_what_is_no_record(self) -> None:
        self.assertRaisesRegex(RecordError, "has no records", stems_of, self.folder)
        self.write("red7k.asked")
        self.assertRaises(FileNotFoundError, read_piece, stems_of(self.folder)[0])
        for text in (b"", b"half"):
            (self.folder / "red7k.said").write_bytes(text)
            self.assertRaisesRegex(RecordError, "red7k.said has no complete line", read_piece,
                                   self.folder / "red7k")
        for line in (b"hello", b"hello  red", b"hi red", b"hello RED", b"hello red\r", b""):
            self.assertEqual(Piece("x", LinkBytes(line + b"\n", b"")).word, "")
