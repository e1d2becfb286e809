"""Made games and the deals of a run: what is drawn, of which seed, and from which secret."""

import hashlib
import json
import random
import shutil
import unittest
from itertools import islice
from pathlib import Path
from typing import Dict, List, Tuple
from unittest import mock

from geesefuton import program
from geesefuton.experiments.deals import (Deal, DealError, Rule, kept_secret, made_deal, read_rooms,
                                          tables)
from geesefuton.records.drawing import (MOST_SEED, classic_endowments, drawn_rooms, drawn_words,
                                        made_game)
from geesefuton.records.games import read_game
from geesefuton.records.secret_deals import (agent_seed, commitment, deal_seed, new_secret,
                                             read_secret)
from tests.package.cases import Case
from tests.package.helpers import SERVED_GAME, TOP, completed, needs_program, served_game

MADE = SERVED_GAME.read_text()
SEEDS = (0, 1, 2, 42, 1 << 32, (1 << 63) + 7, MOST_SEED - 1, MOST_SEED)
# By `printf 'deal 1' | openssl dgst -sha256 -mac HMAC -macopt hexkey:0001..1f`: 16 digits.
SECRET = bytes(range(32))
DEAL_1, DEAL_12 = 0x101c246e2881e969, 0xbc92d3c4d01d9843
OF_AGENT = 0x5065575b699f1940  # of the text `agent 3.1 planner one`


def made(seed: int) -> str:
    """A stand-in for `tac make`, which tells its seed by the first flight."""
    lines = MADE.split("\n")
    words = lines[2].split(" ")
    words[2] = str(250 + seed)
    lines[2] = " ".join(words)
    return "\n".join(lines)


class MadeGames(unittest.TestCase):
    def test_games_that_are_kept(self) -> None:
        self.assertEqual(list(islice(drawn_words(42), 4)),
                         [2707161783, 2068313097, 3122475824, 2211639955])
        first, few = (read_game((TOP / "examples" / name).read_text())
                      for name in ("first.game", "few_rooms.game"))
        self.assertEqual(made_game(42), first)
        self.assertEqual(made_game(7).with_rooms(few.rooms, few.live), few)

    @needs_program
    def test_they_are_those_of_tac(self) -> None:
        for seed in (*SEEDS, *(7919 ** power % 2 ** 64 for power in range(40))):
            self.assertEqual(made_game(seed).text(), program.make(seed))

    def test_rooms_are_in_range_and_reach_every_number(self) -> None:
        drawn = [rooms for seed in range(40) for rooms in drawn_rooms(seed, 3, 6)]
        self.assertEqual(set(drawn), {3, 4, 5, 6})
        self.assertNotEqual(drawn_rooms(1, 1, 64), drawn_rooms(2, 1, 64))
        # The draw of a seed is the same on every machine and in every version.
        self.assertEqual(drawn_rooms(1, 3, 6), [6, 3, 4, 3, 4, 5, 5, 6])


class Endowments(unittest.TestCase):
    def test_of_each_ticket_there_are_eight_and_each_agent_has_four_clumps(self) -> None:
        source, met = random.Random(1), set()
        for seed in [source.randrange(MOST_SEED + 1) for _ in range(1600)]:
            endowments = classic_endowments(seed)
            self.assertEqual(len(endowments), 8)
            self.assertEqual([sum(units) for units in zip(*endowments)], [8] * 12, seed)
            for agent, units in enumerate(endowments):
                for nights in ((1, 4), (2, 3)):
                    kinds = [[units[4 * kind + night - 1] for night in nights] for kind in range(3)]
                    self.assertEqual(sorted(map(sum, kinds)), [0, 2, 4], seed)
                    self.assertEqual(sorted(sum(kinds, [])), [0, 0, 0, 0, 2, 4], seed)
                met |= {(agent, good, count) for good, count in enumerate(units) if count}
        self.assertEqual(len(met), 8 * 12 * 2)  # each agent may have each clump
        # The draw of a seed is the same on every machine and in every version.
        self.assertEqual(classic_endowments(7)[3], [0, 0, 0, 0, 2, 4, 0, 0, 0, 2, 0, 4])


@mock.patch("geesefuton.program.make", made)
class Deals(Case):
    def test_each_deal_is_played_as_often_as_there_are_rotations(self) -> None:
        played = list(tables(Rule(seed=7), 6, 2))
        self.assertEqual([(table.deal.number, table.rotation, table.deal.game.flights[0].first)
                          for table in played], [(1, 0, 257), (1, 1, 257), (2, 0, 258), (2, 1, 258),
                                                 (3, 0, 259), (3, 1, 259)])
        self.assertEqual([table.name for table in played[:3]], ["1.0", "1.1", "2.0"])
        self.assertEqual(len({table.deal.name for table in played}), 3)
        self.assertEqual([table.name for table in tables(Rule(seed=7), 4, 2, {(1, 0), (2, 1)})],
                         ["1.1", "2.0"])

    def test_a_deal_is_named_by_what_is_dealt(self) -> None:
        game = served_game()
        name = Deal(1, game).name
        text = "\n".join(line for line in MADE.split("\n") if not line.startswith(("words", "#")))
        self.assertEqual(name, hashlib.sha256(text.encode()).hexdigest()[:12])
        self.assertEqual(Deal(5, game.named([f"a{seat}" for seat in range(8)])).name, name)
        self.assertNotEqual(Deal(1, game.with_rooms([9] * 8, True)).name, name)

    def test_deals_are_drawn_from_a_secret(self) -> None:
        asked: List[int] = []
        rule = Rule(SECRET)
        with mock.patch("geesefuton.program.make", lambda seed: asked.append(seed) or MADE):
            list(tables(rule, 2, 1))
        self.assertEqual(asked, [deal_seed(SECRET, number) for number in (1, 2)])
        self.assertEqual((rule.drawn, Rule(seed=3).drawn),
                         ({"commitment": commitment(SECRET)}, {"seed": 3}))

    def test_what_a_made_game_may_have(self) -> None:
        """Rooms, quotes and tickets are those of the deal's own seed."""
        few, all_rooms = tuple(drawn_rooms(3, 3, 6)), (16,) * 8
        for more, live, rooms in (({"rooms": (3, 6), "live": True}, True, few),
                                  ({"live": True}, True, all_rooms),
                                  ({"rooms": (4, 4)}, False, (4,) * 8)):
            game = made_deal(Rule(seed=3, **more), 1).game
            self.assertEqual((game.version, game.live, game.rooms), (2, live, rooms))
        for number, seed in ((1, 5), (2, 6), (3, 7)):
            game = made_deal(Rule(seed=5, rooms=(3, 6)), number).game
            self.assertEqual(list(game.rooms), drawn_rooms(seed, 3, 6))
        clumped, plain = (made_deal(Rule(seed=3, is_clumped=each), 1).game
                          for each in (True, False))
        self.assertEqual(clumped, plain.with_endowments(classic_endowments(3)))
        self.assertNotEqual(clumped.endow, plain.endow)
        self.assertEqual(read_game(clumped.text()), clumped)

    def test_quotes_alone_change_a_made_game(self) -> None:
        text = (TOP / "examples" / "first.game").read_text()
        with mock.patch("geesefuton.program.make", lambda seed: text):
            for more, version in (({"live": True}, 2), ({}, 1), ({"rooms": (16, 16)}, 1)):
                game = made_deal(Rule(seed=3, **more), 1).game
                self.assertEqual((game.version, game.live, game.rooms),
                                 (version, version == 2, (16,) * 8))

    def test_numbers_of_rooms(self) -> None:
        self.assertEqual([read_rooms(text) for text in ("4", "3..6", "1..64", "5..5")],
                         [(4, 4), (3, 6), (1, 64), (5, 5)])
        for text in ("", "0..3", "3..65", "6..3", "3-6", "3..", "..6", "3..4..5", "x", "-1", "1.5"):
            with self.assertRaises(DealError, msg=text):
                read_rooms(text)


class Secrets(Case):
    """Secrets, their commitments and the seeds derived from them."""

    def test_seeds_are_those_of_another_program(self) -> None:
        self.assertEqual((deal_seed(SECRET, 1), deal_seed(SECRET, 12)), (DEAL_1, DEAL_12))
        self.assertEqual(agent_seed(SECRET, "3.1", "planner one"), OF_AGENT)
        self.assertEqual(commitment(SECRET), hashlib.sha256(SECRET).hexdigest())

    def test_a_secret_has_256_bits_and_is_drawn_anew(self) -> None:
        drawn = {new_secret() for _ in range(50)}
        self.assertEqual((len(drawn), {len(secret) for secret in drawn}), (50, {32}))

    def test_a_secret_is_read_again_and_nothing_else(self) -> None:
        self.assertEqual(read_secret(SECRET.hex()), SECRET)
        for text in ("", "00", SECRET.hex() + "00", SECRET.hex().upper(), "x" * 64,
                     " " + SECRET.hex()):
            self.assertRaises(ValueError, read_secret, text)

    def test_a_folder_may_have_one(self) -> None:
        self.assertIsNone(kept_secret(self.folder))
        self.write("secret", SECRET.hex() + "\n")
        self.assertEqual(kept_secret(self.folder), SECRET)
        self.write("secret", "12\n")
        self.assertRaisesRegex(DealError, "it has no secret of a run", kept_secret, self.folder)

    @unittest.skipUnless(shutil.which("node"), "there is no Node.js")
    def test_games_of_a_run_are_made_again_in_another_language(self) -> None:
        """By docs/FORMATS.md alone."""
        plain: Dict[str, str] = {"rooms": "16..16", "live": "false"}
        games = [f"{number}.0.game" for number in (1, 10, 2, 3)]
        cases: List[Tuple[Rule, Dict[str, str], List[str]]] = [
            (Rule(SECRET), plain, []),
            (Rule(SECRET, is_clumped=True), {**plain, "endow": "classic"}, []),
            (Rule(SECRET, live=True), {**plain, "live": "true"}, []),
            (Rule(SECRET, rooms=(3, 6), live=True, is_clumped=True),
             {"rooms": "3..6", "live": "true", "endow": "classic"}, []),
            (Rule(bytes(32)), plain, ["the secret is not the one of the commitment", *(
                f"{name} is not the game of the secret" for name in games)])]
        for rule, settings, told in cases:
            self.write("run.json", json.dumps({"settings": settings, "deals": {
                "commitment": commitment(rule.secret), "secret": SECRET.hex()}}))
            for name in games:
                with mock.patch("geesefuton.program.make", lambda seed: made_game(seed).text()):
                    game = made_deal(rule, int(name.split(".")[0])).game
                self.write(f"games/{name}", game.named([f"red{seat}" for seat in range(8)]).text())
            done = completed("node", Path(__file__).with_name("made_again.mjs"), self.folder)
            self.assertEqual((done.returncode, done.stdout.splitlines()), (bool(told), told))
