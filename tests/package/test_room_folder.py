"""The folder of a practice room, its standings, and its teams with their words and slips."""

import contextlib
import json
import os
import tempfile
import unittest
from dataclasses import replace
from fractions import Fraction
from pathlib import Path
from typing import Any, List, Optional, Sequence
from unittest import mock

from geesefuton import program
from geesefuton.hosting import teller
from geesefuton.hosting.journal import Journal
from geesefuton.practice.folder import Finished, Folder, standings_of
from geesefuton.practice.teams import Team, read_teams, slips_of
from geesefuton.processes import write_whole
from geesefuton.program import CommandError
from geesefuton.records.secret_deals import commitment, deal_seed, read_secret
from tests.package.helpers import TOP

FIRST = (TOP / "examples" / "first.game").read_text()
FULL = OSError(28, "No space left on device")


def game_of(number: int, players: Sequence[str] = ("red",), scores: Sequence[int] = (5,)
            ) -> Finished:
    """A finished game of so many seats; the others count for nobody."""
    free = 8 - len(players)
    return Finished(number, number, 1000, 1.0, 2.0, (*players, *[""] * free),
                    {"game": "", "log": ""}, is_judged=True, scores=(*scores, *[0] * free))


class Case(unittest.TestCase):
    def setUp(self) -> None:
        place = tempfile.TemporaryDirectory()
        self.addCleanup(place.cleanup)
        self.place = Path(place.name)
        self.path = self.place / "room"

    def folder(self, seed: Optional[int] = None) -> Folder:
        made = Folder(self.path, seed)
        self.addCleanup(made.close)
        return made

    def patch(self, place: Any, name: str, what: Any) -> Any:
        change = mock.patch.object(place, name, what)
        self.addCleanup(change.stop)
        return change.start()

    def go_to(self, folder: Path) -> None:
        self.addCleanup(os.chdir, os.getcwd())
        os.chdir(folder)


class RoomCase(Case):
    """A room whose games are the first of the examples, and whose logs are called sound."""

    def setUp(self) -> None:
        super().setUp()
        self.make = self.patch(program, "make", mock.Mock(return_value=FIRST))
        self.audit = self.patch(program, "audit", mock.Mock(return_value="sound"))
        self.patch(teller, "tell", mock.Mock())
        self.kept = self.folder(seed=7)


class Files(Case):
    def test_a_file_is_on_the_disk_before_it_has_its_name_and_then_its_name_is(self) -> None:
        file, steps, fsync, rename = self.place / "x", list[Any](), os.fsync, os.replace

        def sync(number: int) -> None:
            is_folder = os.path.samestat(os.fstat(number), self.place.stat())
            steps.append("folder" if is_folder else next(self.place.glob(".x*")).read_bytes())
            fsync(number)

        def replaced(old: Path, new: Path) -> None:
            steps.append(new)
            rename(old, new)

        before = len(os.listdir("/dev/fd"))
        with mock.patch("os.fsync", sync), mock.patch("os.replace", replaced):
            write_whole(file, b"all of it")
        self.assertEqual(steps, [b"all of it", file, "folder"])
        self.assertEqual((file.stat().st_mode & 0o777, len(os.listdir("/dev/fd"))), (0o600, before))

    def test_a_file_that_others_have_made_is_neither_followed_nor_kept(self) -> None:
        victim, file, new = (self.place / name for name in ("victim", "words", ".words.new"))
        victim.write_text("keep me")
        new.symlink_to(victim)
        write_whole(file, b"passwords")
        self.assertEqual((victim.read_text(), file.is_symlink()), ("keep me", False))
        new.touch()
        new.chmod(0o666)
        write_whole(file, b"passwords")
        self.assertEqual(file.stat().st_mode & 0o777, 0o600)


class Folders(Case):
    def journal(self, number: int, has_begun: bool = True) -> None:
        journal = Journal(self.path / f"{number:04}.journal", self.fail)
        journal.head(100, "words", FIRST)
        if has_begun:
            journal.tell(begin=[])
            journal.begin_time()
            journal.tell(tick=0, t=0)
        journal.close()

    def refused(self, told: str, seed: Optional[int] = None, path: Optional[Path] = None) -> None:
        with self.assertRaisesRegex(CommandError, told):
            Folder(path or self.path, seed)

    def test_games_are_kept_and_found_again_in_the_order_of_their_numbers(self) -> None:
        folder = self.folder(7)
        self.assertEqual(folder.next_number(), (1, []))
        games = [game_of(number, ["red", "blue"], [5, -number]) for number in (2, 9999, 10000)]
        for game in reversed(games):
            folder.keep(game, b"log")
            folder.judge(game)
        folder.close()
        again = self.folder()
        self.assertEqual((again.rule.seed, again.finished, again.unjudged, again.next_number()),
                         (7, games, {}, (10001, [])))
        self.assertEqual(again.file(2, "log").read_bytes(), b"log")

    def test_a_game_that_is_not_judged_is_found_again_and_counts_once_it_is(self) -> None:
        folder = self.folder()
        game = replace(game_of(1), is_judged=False, scores=())
        folder.keep(game, b"log")
        folder.close()
        again = self.folder()
        self.assertEqual((again.finished, again.unjudged, again.next_number()),
                         ([], {1: game}, (2, [])))
        again.judge(game_of(1))
        self.assertEqual((again.finished, again.unjudged), ([game_of(1)], {}))
        again.close()
        self.assertEqual(self.folder().finished, [game_of(1)])

    def test_a_game_that_had_begun_has_its_number_and_one_that_had_not_has_none(self) -> None:
        folder = self.folder()
        for number in (1, 2, 3):
            self.journal(number)
        folder.keep(game_of(1), b"")
        folder.keep(game_of(3), b"")
        folder.judge(game_of(3))
        self.assertEqual(folder.next_number(), (4, [2]))
        self.journal(4, has_begun=False)
        files = [folder.file(number, "journal") for number in (2, 4, 5, 6)]
        files[2].write_text("half a li")  # whatever it has is kept
        files[3].touch()
        self.assertEqual(folder.next_number(), (6, [2, 5]))
        self.assertEqual([file.exists() for file in files], [True, False, True, False])

    def test_a_folder_of_another_or_of_another_version_is_refused_and_let_go(self) -> None:
        folder = self.folder(3)
        self.refused("another room is using")
        folder.close()
        self.refused("with the first seed 3, not the first seed 4", 4)
        (self.path / "0001.json").write_text('{"number": 1}')
        self.refused("0001.json is not the manifest")
        (self.path / "room.json").write_text("runs")
        self.refused("was not written by a room")
        other = self.place / "other"
        other.mkdir()
        (other / "run.json").write_text("{}")
        self.refused("has files, but is not the folder", path=other)
        (self.path / "0001.json").unlink()
        for text in ('{"room": 1, "seed": 1}', '{"room": 2, "seed": "1"}', '{"room": 2}', "[]"):
            (self.path / "room.json").write_text(text)
            for _ in range(2):  # the second one finds no lock
                self.refused("room.json (was not|does not)")
        (self.path / "room.json").write_text('{"room": 2, "seed": 0}')
        self.assertEqual(self.folder(0).rule.seed, 0)

    def test_a_log_is_on_the_disk_before_the_manifest_which_is_whole_or_not_there(self) -> None:
        folder, written = self.folder(), list[str]()
        for step in ("fsync", "replace"):
            with mock.patch(f"os.{step}", side_effect=FULL), self.assertRaises(OSError):
                folder.keep(game_of(1), b"log")
            self.assertEqual((sorted(os.listdir(self.path)), folder.unjudged),
                             (["lock", "room.json", "secret"], {}))
        for fails in ("0001.log", "0001.json", ""):
            def write(file: Path, data: bytes, fails: str = fails) -> None:
                if file.name == fails:
                    raise FULL
                written.append(file.name)

            with mock.patch("geesefuton.practice.folder.write_whole", write), \
                    contextlib.suppress(OSError):
                folder.keep(game_of(1), b"log")
            written.append("")
        self.assertEqual(written, ["", "0001.log", "", "0001.log", "0001.json", ""])
        self.assertEqual(len(folder.unjudged), 1)

    def test_a_file_that_was_half_written_makes_the_folder_nobody_elses(self) -> None:
        self.path.mkdir()
        (self.path / ".room.json.new").write_text("{")
        folder = self.folder(5)
        folder.keep(game_of(1), b"")
        (self.path / ".0002.json.new").write_text("{")
        folder.close()
        again = self.folder()
        self.assertEqual((again.rule.seed, len(again.finished)), (5, 1))
        self.assertEqual(list(self.path.glob(".*")), [])

    # What games are drawn from.

    def test_games_are_drawn_from_a_secret_to_which_the_folder_commits_or_from_a_seed(self) -> None:
        self.path.mkdir()
        file = self.path / "secret"
        file.write_text("00" * 32)  # a room was killed while it made the folder
        folder = self.folder()
        secret = read_secret(file.read_text().strip())
        self.assertEqual((any(secret), file.stat().st_mode & 0o777), (True, 0o600))
        self.assertEqual(json.loads((self.path / "room.json").read_bytes()),
                         {"room": 2, "commitment": commitment(secret)})
        self.assertEqual(folder.commitment, commitment(secret))
        folder.close()
        for made in (folder, self.folder()):
            self.assertEqual([made.rule.seed_of(number) for number in (1, 2)],
                             [deal_seed(secret, number) for number in (1, 2)])

        seeded = Folder(self.place / "seeded", 7)
        self.addCleanup(seeded.close)
        self.assertEqual([seeded.rule.seed_of(number) for number in (1, 2, 3)], [7, 8, 9])
        self.assertEqual((seeded.commitment, (self.place / "seeded" / "secret").exists()),
                         ("", False))

    def test_another_secret_or_none_is_refused(self) -> None:
        self.folder().close()
        file = self.path / "secret"
        for text, told in (("00" * 32, "does not have the secret to which"),
                           ("short", "it has no secret"), ("\u00e9", "it has no secret")):
            file.write_text(text)
            self.refused(told)
        file.unlink()
        self.refused("does not have the secret to which")
        self.refused("has a room with secret deals", 7)

    def test_a_room_that_is_over_shows_its_secret_and_goes_on_no_more(self) -> None:
        folder = self.folder()
        secret = (self.path / "secret").read_text().strip()
        with mock.patch("os.replace", side_effect=FULL), self.assertRaises(OSError):
            folder.end()
        self.assertEqual(folder.end(), secret)
        self.assertEqual(json.loads((self.path / "room.json").read_bytes())["secret"], secret)
        folder.close()
        self.refused("is over")


class Standings(unittest.TestCase):
    def test_averages_are_exact_and_ranks_are_those_of_the_table(self) -> None:
        games = [game_of(1, ["red", "blue", "house", "house"], [10, 10, 1, 2]),
                 game_of(2, ["blue", "", "red"], [11, 99, 10]), game_of(4, ["blue"], [9])]
        rows = standings_of(games)
        self.assertEqual([(row.rank, row.name, row.games, row.average) for row in rows],
                         [(1, "blue", 3, Fraction(10)), (1, "red", 2, Fraction(10)),
                          (3, "house", 2, Fraction(3, 2))])
        self.assertAlmostEqual(rows[0].half or 0.0, 4.302652729911275 / 3 ** 0.5)
        self.assertIsNone(rows[2].half)  # two seats of one game
        lost = Finished(3, 3, 100, 1.0, 2.0, ("red",) * 8, {}, fault="exit status 7")
        self.assertEqual(standings_of([lost]), [])


class Teams(Case):
    def read(self, text: str, most: int = 8, folder: Optional[Folder] = None) -> List[Team]:
        file = self.place / "teams.csv"
        file.write_text(text)
        return read_teams(file, folder.words() if folder else {}, most)

    def test_words_are_made_and_kept(self) -> None:
        folder = self.folder()
        teams = self.read("Red Foxes\nBlau,b4\n\n", folder=folder)
        self.assertEqual([(team.name, team.key) for team in teams],
                         [("Red Foxes", "redfoxes"), ("Blau", "blau")])
        self.assertRegex(teams[0].word, "^[a-z2-9]{10}$")
        folder.keep_words(teams)
        self.assertEqual(os.stat(self.path / "words.json").st_mode & 0o077, 0)
        folder.keep_words([Team("Blau", "blau", "b5")])  # the other team is not here this time
        folder.close()
        self.assertEqual(self.read("Red Foxes\nBlau\n", folder=self.folder()),
                         [teams[0], Team("Blau", "blau", "b5")])
        self.assertEqual([team.key for team in self.read("The Traders of the Tower 2\nName\n")],
                         ["thetradersofthet", "name"])

    def test_what_are_no_teams(self) -> None:
        many = "".join(f"team {number}\n" for number in range(65))
        for text, most, told in (("", 8, "0 teams"), (many[:63], 8, "9 teams"),
                                 (many, 64, "has 65 teams, but a room has 1 to 64"),
                                 ("Red\nred\n", 8, "the same name"),
                                 ("a,x\nb,x\n", 8, "the same word"),
                                 ("a,Not\n", 8, "is not a team"), ("\u00fc\n", 8, "is not a team"),
                                 ("a,b,c\n", 8, "is not a team")):
            with self.subTest(text=text[:20]), self.assertRaisesRegex(CommandError, told):
                self.read(text, most)
        folder = self.folder()
        (self.path / "words.json").write_text("[")
        with self.assertRaisesRegex(CommandError, "words.json does not have the words of teams"):
            folder.words()

    def test_slips(self) -> None:
        teams = self.read("<Red>,r3d\nB & C,b7\n")
        self.assertNotIn("Join", slips_of(teams, "10.0.0.1", 7000, None))
        page = slips_of(teams, "10.0.0.1", 7000, 7080)
        self.assertIn("python3 mine.py 10.0.0.1 7000 r3d --again", page)
        self.assertIn("Join at http://10.0.0.1:7080/join, or run:", page)
        self.assertEqual((page.count("<section>"), page.count("&lt;Red&gt;"), "<Red>" in page),
                         (2, 1, False))
        self.assertIn("<h2>B &amp; C</h2>", page)
