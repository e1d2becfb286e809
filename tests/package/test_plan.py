"""The words of a tournament's command, what its plan says of what can be compared, and who sits
where."""

import os
import sys
import unittest
from collections import Counter
from pathlib import Path
from typing import Dict
from unittest import mock

from geesefuton.experiments.deals import Deal, Rule, Table
from geesefuton.experiments.plan import Plan, make_parser, read_plan, text_of
from geesefuton.experiments.provenance import digest_of, package_digest
from geesefuton.experiments.seating import Seating
from tests.package.helpers import SERVED_GAME, served_game
from tests.package.run_cases import PlaceCase


def plan_of(*words: object) -> Plan:
    """The plan of the command with these words."""
    parser = make_parser("")
    return read_plan(parser, parser.parse_args(["--out", "x", *map(str, words)]))


class Commands(PlaceCase):
    """Words, with a stand-in for the program."""

    def setUp(self) -> None:
        super().setUp()
        self.use_program()

    def refused(self, told: str, *words: object, status: int = 2) -> None:
        out = [] if "--out" in words else ["--out", self.folder / "run"]
        self.assert_refused(told, "tournament", *out, *words, status=status)
        self.assertFalse((self.folder / "run").exists())

    def test_words_that_are_refused(self) -> None:
        for name in ("NA.py", "x\u2028y.py"):
            self.write(name, "")
        number, seconds = "a number", "expected a number of seconds"
        for told, *words in (
                ("tournament: there is no file none.py", "none.py"),
                ("no closing quotation", "sh 'x"), ("not an empty word", ""),
                ("an agent called NA reads as missing", self.folder / "NA.py"),
                ("characters that cannot be printed", f"'{self.folder}/x\u2028y.py'"),
                ("seeds are at most", "--seed", "18446744073709551613", "sh"),  # of four deals
                ("--pace is for games with a clock", "--turns", "5", "--pace", "100", "sh"),
                ("--patience needs --turns", "--patience", "3", "sh"),
                ("expected rooms", "--rooms", "0..3", "sh"),
                ("the following arguments are required: AGENT", "--games", "4"),
                ("unrecognized arguments: --gam", "sh", "--gam", "4"),  # words are not abbreviated
                ("unrecognized arguments: --sum", "--sum", "x.json", "sh"),
                ("sh and sh are the same agent: name each once", "sh", "sh"),
                ("65 agents: at most 64", *(f"sh {number}" for number in range(65))),
                (number, "--games", "0", "sh"), (number, "--games", "x", "sh"),
                (number, "--at-once", "0", "sh"), (number, "--pace", "60001", "sh"),
                (number, "--games", "1.5", "sh"), *(
                    ("18446744073709551615", "--seed", seed, "sh")
                    for seed in ("-1", "18446744073709551616", "18446744073709551615")),
                (seconds, "--start", "x"), (seconds, "--after", "-1"), (seconds, "--start", "nan"),
                (seconds, "--patience", "x"), *((number, "--turns", turns, "sh")
                                                for turns in ("0", "1001", "x"))):
            self.refused(told, *words)
        for told, word in (("name a new folder for the run with --out", "--resume"),
                           ("--partial needs --join", "--partial"),
                           ("--pool needs --join", "--pool")):
            self.assert_refused(told, "tournament", word, "sh")
        self.refused("Not a directory", "--out", SERVED_GAME / "x", "sh", status=1)
        self.set(TAC="/nowhere/tac")
        self.refused("there is no program /nowhere/tac", "sh")

    def test_how_many_games_are_played(self) -> None:
        many = [f"sh {number}" for number in range(20)]
        with mock.patch("geesefuton.experiments.plan.tell") as tell:
            for words, games, rotations in (
                    (["sh", "cat", "--games", "3"], 4, 2), (["sh", "cat", "ls"], 6, 3),
                    (["sh", "cat"], 4, 2), (["sh"], 4, 1), (many, 60, 3),
                    ([*many, "--games", "4"], 6, 3), (["sh", "cat", "--against", "ls"], 16, 2)):
                plan = plan_of(*words)
                self.assertEqual((plan.games, plan.rotations), (games, rotations), words)
        self.assertIn("playing 4 games", str(tell.call_args_list[0]))

    def test_a_plan(self) -> None:
        for words, due in (
                ("sh --rooms 3..6 --live --json --seed 9 --start 3 --after 4 --pace 60", {
                    "rule": Rule(b"9", 9, (3, 6), True), "form": "json", "start": 3.0,
                    "linger": 4.0, "pace": 60, "turns": 0}), ("sh --at-once 5", {"at_once": 5}),
                ("sh --turns 20", {"turns": 20, "patience": 30.0, "linger": 30.0}),
                ("sh --turns 20 --patience 3 --after 0", {"patience": 3.0, "linger": 0.0}),
                ("sh cat ls --games 6", {
                    "pace": 100, "linger": 5.0, "games": 6, "rotations": 3, "turns": 0,
                    "at_once": os.cpu_count(), "form": "words", "start": 20.0}),
                ("sh --out runs/1 --resume", {"out": Path("runs/1"), "is_resumed": True})):
            plan = plan_of(*words.split())
            self.assertEqual({name: getattr(plan, name) for name in due}, due)
        self.assertEqual(plan_of("sh", "--seed", "18446744073709551612").rule.seed, 2 ** 64 - 4)
        self.assertEqual(sorted(plan_of("sh", "cat").agents), ["cat", "sh"])

    def test_a_run_draws_from_a_secret_of_its_own(self) -> None:
        rules = [plan_of("sh", *words).rule for words in ([], [], ["--seed", "9"], ["--seed", "9"])]
        self.assertEqual([rule.seed for rule in rules], [None, None, 9, 9])
        self.assertNotEqual(rules[0].secret, rules[1].secret)
        self.assertEqual(rules[2], rules[3])

    def test_agents_of_a_pool_have_names_of_their_own(self) -> None:
        plan = plan_of("sh", "cat", "--against", "sh", "--against", "ls")
        self.assertEqual([entrant.name for entrant in plan.entrants],
                         ["sh", "cat", "sh (pool)", "ls (pool)"])
        for rotation, name in enumerate(("sh", "cat")):
            names = [entrant.name for entrant in plan.seated(
                Table(Deal(2, served_game()), rotation))]
            self.assertEqual(names[1], name)
            self.assertEqual(set(names[:1] + names[2:]), {"sh (pool)", "ls (pool)"})

    def test_a_plan_is_printed_with_how_equal_it_is(self) -> None:
        lines = text_of(plan_of("sh", "cat", "--plan", "--games", "4")).splitlines()
        self.assertEqual([line.split()[0] for line in lines[:4]], ["1.0", "1.1", "2.0", "2.1"])
        for line in lines[:4]:
            self.assertEqual(sorted(line.split()[1:]), ["cat"] * 4 + ["sh"] * 4)
        self.assertEqual(lines[4:], [
            "4 games of 2 deals", "games of an agent: 4", "times at each seat: 2",
            "games in which two agents meet: 4", "times that one follows another: 16"])


class Settings(PlaceCase):
    """What a plan says of what can be compared, with a stand-in for the program."""

    def setUp(self) -> None:
        super().setUp()
        self.tac = self.use_program()

    def settings(self, *words: object) -> Dict[str, str]:
        plan = plan_of("--no-apart", *words, "sh", "cat")
        return {name: str(value) for name, value in plan.settings.items()}

    def test_games_by_the_clock_and_in_turns(self) -> None:
        digests = {"tac": digest_of(Path(self.tac))[:12], "package": package_digest()[:12]}
        digests["python"] = f"{sys.version_info[0]}.{sys.version_info[1]}"
        shared = {"agents": "sh+cat", "rotations": "2", "rooms": "16..16", "live": "false",
                  "form": "words", "start": "20"}
        self.assertEqual(self.settings(), {**shared, "pace": "100", "after": "5", **digests})
        self.assertEqual(self.settings("--turns", "40"), {
            **shared, "turns": "40", "after": "30", **digests})

    def test_what_decides_is_in_them_and_nothing_else(self) -> None:
        first, in_turns = self.settings(), self.settings("--turns", "40")
        for words, name, value in (
                (["--rooms", "3..6"], "rooms", "3..6"),
                (["--rooms", "4"], "rooms", "4..4"), (["--live"], "live", "true"),
                (["--endow", "classic"], "endow", "classic"),
                (["--json"], "form", "json"), (["--start", "3.5"], "start", "3.5"),
                (["--after", "2"], "after", "2"), (["--pace", "50"], "pace", "50")):
            self.assertEqual(self.settings(*words), {**first, name: value})
        for words in (["--seed", "9"], ["--games", "8"], ["--at-once", "1"],
                      ["--summary", "x.json"], ["--detect", "100"], ["--out", "x"]):
            self.assertEqual(self.settings(*words), first)
        self.assertEqual(self.settings("--turns", "40", "--patience", "9"), in_turns)
        self.assertEqual(self.settings("--turns", "20"), {**in_turns, "turns": "20"})
        against = self.settings("--against", "ls", "--against", "sh")
        self.assertEqual((against["agents"], against["against"]),
                         ("sh+cat", "ls%20%28pool%29+sh%20%28pool%29"))
        with mock.patch("platform.python_version_tuple", lambda: ("3", "99", "1")):
            self.assertEqual(self.settings(), {**first, "python": "3.99"})

    def test_games_in_sandboxes_go_in_step_and_what_these_lack_is_told(self) -> None:
        self.patch("experiments.plan.why_not", str)
        for words, is_in_step in ((["--turns", "2"], True), ([], False),
                                  (["--turns", "2", "--no-apart"], False),
                                  (["--turns", "2"] + ["--against", "sh"] * 7, True)):
            plan = plan_of("--apart", *words, "sh", "cat")
            self.assertEqual(plan.is_in_step, is_in_step)
        self.patch("experiments.plan.FILTER", b"")
        with mock.patch("geesefuton.experiments.plan.tell") as tell:
            plan_of("--apart", "sh", "cat")
        self.assertIn("those of this machine are not known", tell.call_args_list[0].args[0])


class Plans(unittest.TestCase):
    """Counts of who plays, meets, sits and follows, by the games themselves."""

    def test_a_round_is_equal_up_to_one(self) -> None:
        for agents in (2, 3, 7, 8, 9, 20, 30, 64):
            seating = Seating(agents)
            games = [seating.game(deal, rotation) for deal in range(seating.round)
                     for rotation in range(seating.games)]
            played = Counter(agent for game in games for agent in set(game))
            met = Counter(pair for game in games for pair in
                          {(one, other) for one in game for other in game if one < other})
            sat = Counter(place for game in games for place in zip(game, range(8)))
            followed = Counter(pair for game in games
                               for pair in zip(game, game[1:] + game[:1]) if pair[0] != pair[1])
            ranges = [(min(counter.values()) if len(counter) == keys else 0, max(counter.values()))
                      for counter, keys in ((played, agents), (sat, 8 * agents),
                                            (met, agents * (agents - 1) // 2),
                                            (followed, agents * (agents - 1)))]
            self.assertLessEqual(max(most - least for least, most in ranges), 1, agents)
            self.assertEqual(list(seating.counts(seating.round).values()), ranges)

    def test_everybody_plays_each_deal(self) -> None:
        for agents in (1, 5, 8, 9, 10, 12, 17, 33, 64):
            seating = Seating(agents)
            for deal in (0, 1, 4):
                there = Counter(agent for rotation in range(seating.games)
                                for agent in seating.game(deal, rotation))
                self.assertEqual(len(there), agents)
                self.assertLessEqual(max(there.values()) - min(there.values()), 1)
                if agents > 8:
                    self.assertEqual({len(set(seating.game(deal, rotation)))
                                      for rotation in range(seating.games)}, {8})

    def test_each_entrant_is_alone_among_the_same_agents(self) -> None:
        seating = Seating(3, 2)
        for deal in range(seating.round):
            games = [seating.game(deal, rotation) for rotation in range(seating.games)]
            self.assertEqual([game[deal % 8] for game in games], [0, 1, 2])
            for game in games:
                game[deal % 8] = 0
                self.assertEqual(set(game[:deal % 8] + game[deal % 8 + 1:]), {3, 4})
            self.assertEqual(games, [games[0]] * 3)
        self.assertEqual(seating.counts(16), {"games of an agent": (16, 16),
                                              "times at each seat": (2, 2)})
