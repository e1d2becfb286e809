"""Summaries of games, and their forms."""

import json
import random
import unittest
from dataclasses import replace
from typing import Any, List
from unittest import mock

from geesefuton.experiments.comparisons import (Estimate, adjusted, bonferroni_halves,
                                                deals_to_detect, estimate, holm, signed_rank_p,
                                                student_p)
from geesefuton.experiments.forms import as_grades, as_json, as_text, columns, number_text
from geesefuton.experiments.results import HEAD, Kind, Outcome, Row, read_rows, text_of
from geesefuton.experiments.summary import Summary, summarize
from geesefuton.program import CommandError
from geesefuton.records.tables import csv_of
from tests.package.helpers import needs_study
from tests.package.run_cases import SWAPPED, games_of, read_csv, row


class Means(unittest.TestCase):
    def test_standings_are_by_deals_the_best_first(self) -> None:
        summary = summarize(SWAPPED)
        self.assertEqual([standing.agent for standing in summary.standings], ["a", "b"])
        self.assertEqual([standing.score for standing in summary.standings],
                         [estimate([170.0, 230.0]), estimate([150.0, 170.0])])
        self.assertEqual((summary.games, summary.deals, summary.partial,
                          summary.standings[0].seats), (4, 2, 0, 4))

    def test_every_seat_counts_and_those_that_played_beside_it(self) -> None:
        rows = [row("1", 0, 0, "a", 500), row("1", 0, 1, "a", -900, Outcome.CRASHED),
                row("1", 0, 2, "b", 20, Outcome.ABSENT), row("2", 0, 0, "a", 300),
                row("2", 0, 1, "a", 0, Outcome.HUNG), row("2", 0, 2, "b", 0, Outcome.REFUSED)]
        first, second = summarize(rows).standings
        self.assertEqual((first.agent, first.score), ("a", estimate([-200.0, 150.0])))
        self.assertEqual((first.played, first.untaken), (estimate([500.0, 300.0]), 0))
        self.assertEqual((first.seats, first.failed), (4, 2))
        self.assertEqual(first.ends, {Outcome.PLAYED: 2, Outcome.CRASHED: 1, Outcome.HUNG: 1})
        self.assertEqual((second.agent, second.score, second.played, second.failed, second.untaken),
                         ("b", estimate([20.0, 0.0]), None, 2, 2))
        self.assertEqual(summarize(rows).differences[0].score, estimate([-220.0, 150.0]))

    def test_no_agent_gains_by_failing(self) -> None:
        """An agent without a game comes after one with a mean below 0, and one that crashes where
        it does badly has the mean of one that plays on."""
        rows = [row("1", 0, 0, "gone", 0, Outcome.ABSENT), row("1", 0, 1, "plays", -720)]
        self.assertEqual([standing.agent for standing in summarize(rows).standings],
                         ["plays", "gone"])
        rows = games_of(plays=(-900, 800, 300), quits=(-900, 800, 300))
        rows[1] = replace(rows[1], end=Outcome.CRASHED)
        plays, quits = summarize(rows).standings
        self.assertEqual((plays.score, quits.played), (quits.score, estimate([800.0, 300.0])))
        self.assertEqual(summarize(rows).differences[0].score, estimate([0.0] * 3))

    def test_seats_of_a_deal_count_once_together(self) -> None:
        rows = [row("1", 0, 0, "a", 0), row("1", 0, 1, "a", 0), row("1", 0, 2, "a", 300),
                row("2", 0, 0, "a", 200)]
        self.assertEqual(summarize(rows).standings[0].score, estimate([100.0, 200.0]))


class Differences(unittest.TestCase):
    def test_agents_are_compared_by_clients_that_both_had_or_by_their_means(self) -> None:
        crashed = row("1", 1, 1, "a", -30, Outcome.CRASHED)  # its clients count, too
        others = [row("1", 0, 0, "a", 100), row("1", 0, 1, "a", 300), row("1", 0, 2, "b", 50),
                  row("2", 0, 0, "b", 10), row("2", 0, 1, "b", 30), row("2", 0, 2, "a", 90),
                  row("3", 0, 0, "a", 7), row("4", 0, 1, "b", 9)]
        for rows, names, values, by_clients, left_out in (
                (SWAPPED, "ab", [20.0, 60.0], True, 0),
                ([*SWAPPED[:3], crashed, *SWAPPED[4:]], "ba", [110.0, -60.0], True, 0),
                ([*SWAPPED[:3], *SWAPPED[4:]], "ab", [10.0, 60.0], True, 0),
                ([SWAPPED[1], *SWAPPED[3:]], "ab", [30.0, 60.0], True, 0),
                ([*SWAPPED[:2], *SWAPPED[4:]], "ba", [-60.0], True, 1),
                (others, "ab", [150.0, 70.0], False, 0)):
            pair, = summarize(rows).differences
            self.assertEqual((pair.first + pair.second, pair.score, pair.by_clients, pair.left_out,
                              pair.adjusted),
                             (names, estimate(values), by_clients, left_out, None))

    def test_clients_that_only_one_of_them_had_do_not_count_in_a_broken_deal(self) -> None:
        # Three agents change their seats in three games a deal; of the third deal the last game is
        # lost. There a and b have both had seats 1, 2, 4, 5 and 7, where a has 50 more, as in the
        # other deals; at seats 0, 3 and 6 b alone had clients that are worth 900.
        rows = []
        for deal in "123":
            for rotation in range(2 if deal == "3" else 3):
                for seat in range(8):
                    agent = "abc"[(seat + rotation + 1) % 3]
                    score = {"a": 50, "b": 0, "c": -300}[agent] + (900 if seat % 3 == 0 else 0)
                    rows.append(replace(row(deal, rotation, seat, agent, score),
                                        settings="rotations=3"))
        summary = summarize(rows)
        pair = next(pair for pair in summary.differences if {pair.first, pair.second} == set("ab"))
        assert pair.score is not None
        self.assertEqual((pair.by_clients, abs(pair.score.mean), pair.score.half, pair.score.count),
                         (True, 50.0, 0.0, 3))
        self.assertEqual(summary.partial, 1)

    def test_one_deal_has_no_interval_and_no_probability(self) -> None:
        rows = [row("1", rotation, seat, "ab"[(seat + rotation) % 2], 100 * seat + rotation)
                for rotation in range(2) for seat in range(8)]
        pair, = summarize(rows, detect=100).differences
        assert pair.score is not None
        self.assertEqual((pair.score.half, pair.student, pair.wilcoxon, pair.holm, pair.bonferroni,
                          pair.needed), (None,) * 6)

    def test_every_pair_is_there_once_the_better_first(self) -> None:
        pairs = summarize(games_of(b=[5], c=[1], a=[9])).differences
        self.assertEqual([pair.first + pair.second for pair in pairs], ["ab", "ac", "bc"])

    def test_several_pairs_have_what_allows_for_all_of_them(self) -> None:
        summary = summarize(games_of(a=(9, 8, 9, 7), b=(5, 5, 6, 4), c=(5, 1, 7, 6)))
        pairs = summary.differences
        self.assertEqual([pair.bonferroni for pair in pairs],
                         bonferroni_halves([pair.score for pair in pairs]))
        self.assertEqual([pair.holm for pair in pairs], holm([pair.student for pair in pairs]))
        self.assertEqual(pairs[0].student, student_p(estimate([4.0, 3.0, 3.0, 3.0])))
        self.assertEqual(pairs[0].wilcoxon, signed_rank_p([4.0, 3.0, 3.0, 3.0]))
        self.assertEqual([pair.is_shown for pair in pairs], [True, False, False])
        self.assertEqual(summary.groups, [["a", "c"], ["b", "c"]])
        alone = summarize(SWAPPED).differences[0]
        assert alone.score and alone.score.half
        self.assertAlmostEqual(alone.bonferroni or 0.0, alone.score.half)
        self.assertEqual(alone.holm, alone.student)


@needs_study
class Draws(unittest.TestCase):
    def test_means_are_adjusted_to_the_luck_of_all_made_games(self) -> None:
        scores = {"a": [100, 140, 210], "b": [50, 90, 20]}
        lucks = {"a": [1000, 1100, 1300], "b": [900, 1000, 800]}
        rows = [replace(each, luck=lucks[each.agent][int(each.deal)])
                for each in games_of(**scores)]
        summary = summarize(rows)
        for standing in summary.standings:
            self.assertEqual(standing.adjusted, adjusted(scores[standing.agent],
                                                         [lucks[standing.agent]], [2153.43]))
            self.assertEqual(standing.luck, sum(lucks[standing.agent]) / 3)
        pair = summary.differences[0]
        self.assertEqual(pair.adjusted, adjusted([50, 50, 190], [[100, 100, 500]], [0.0]))

    def test_a_pair_is_adjusted_to_equal_draws_that_are_as_those_of_all_made_games(self) -> None:
        # Agent a scores 7 more than b at equal draws, and then what its own draw gives it; and what
        # both draws and the flights give in the mean has a part in their difference, too.
        source, rows = random.Random(8), list[Row]()
        for deal in range(30):
            first, draws = source.uniform(300.0, 350.0), []
            for seat, agent in enumerate("ab"):
                draws.append((source.randrange(1500, 2500), source.choice([1.5, 2.0, 2.5])))
                score: Any = 2.0 * draws[seat][0] + 30.0 * draws[seat][1]
                if agent == "b":
                    luck, nights = (sum(values) / 2 for values in zip(*draws))
                    score -= 7.0 + 0.5 * (first - 325.0) + 10.0 * (nights - 2.0) \
                        + 0.25 * (luck - 2153.43)
                rows.append(replace(row(str(deal), 0, seat, agent, 0, luck=draws[seat][0]),
                                    score=score, nights=draws[seat][1], first_price=first,
                                    settings="rooms=16..16"))
        pair, = summarize(rows).differences
        sign = 1.0 if pair.first == "a" else -1.0
        assert pair.adjusted is not None and pair.adjusted.half is not None
        self.assertAlmostEqual(pair.adjusted.mean, sign * 7.0, places=6)
        self.assertAlmostEqual(pair.adjusted.half, 0.0, places=5)
        a = next(each for each in summarize(rows).standings if each.agent == "a")
        assert a.adjusted is not None
        self.assertAlmostEqual(a.adjusted.mean, 2.0 * 2153.43 + 30.0 * 2.0, places=5)


    def drawn(self, deals: int, agents: str, settings: str = "rooms=16..16") -> List[Row]:
        """Rows with all covariates: an agent's score is 1000 (2000 for b), with what its draw is
        worth."""
        source, rows = random.Random(8), []
        for deal in range(deals):
            first_price = 325.0 + source.randrange(-40, 40)
            for seat, agent in enumerate(agents):
                luck, nights = 2153 + source.randrange(-300, 300), 2.0 + source.randrange(-6, 7) / 8
                score = {"a": 1000, "b": 2000}[agent] + luck - 2153 - 400 * (nights - 2.0) \
                    - 3 * (first_price - 325.0)
                rows.append(Row(str(deal), 0, seat, agent, round(score), Outcome.PLAYED, luck,
                                Kind.TURNS, nights, first_price, settings=settings))
        return rows

    def test_means_are_adjusted_to_the_draws_of_all_made_games(self) -> None:
        summary = summarize(self.drawn(16, "ab"))
        for standing, due in zip(summary.standings, (2000.0, 1000.0)):
            assert standing.adjusted and standing.adjusted.half and standing.score.half
            self.assertAlmostEqual(standing.adjusted.mean, due, delta=2.0)
            self.assertLess(standing.adjusted.half, 2.0)
            self.assertGreater(standing.score.half, 50.0)
        pair = summary.differences[0].adjusted
        assert pair is not None and pair.half is not None
        self.assertAlmostEqual(pair.mean, 1000.0, delta=1.0)

    def test_swapped_pairs_are_adjusted_by_the_draws_that_both_had(self) -> None:
        rows = self.drawn(16, "ab")
        rows += [replace(row, rotation=1, agent="ba"["ab".index(row.agent)],
                         score=row.score + (1000 if row.agent == "a" else -1000)
                         + round(row.first_price)) for row in rows]
        pair = summarize(rows).differences[0]
        assert pair.score is not None and pair.adjusted is not None
        self.assertAlmostEqual(pair.adjusted.mean, 1000.0, delta=2.0)


class Rows(unittest.TestCase):
    def test_rows_are_written_and_read(self) -> None:
        game = [row("1", 0, seat, 'a "b", c', 110 - seat, Outcome.HUNG, -3) for seat in range(8)]
        rows = [*game, *(replace(each, deal="0a1b", rotation=2, kind=Kind.TURNS, nights=2.625,
                                 first_price=318.25, run=4, settings="turns=40 rooms=16..16",
                                 files="0123456789ab", missed=45, number=7) for each in game)]
        text = csv_of([HEAD]) + text_of(rows)
        lines = text.split("\n")
        self.assertEqual(lines[0], "deal,rotation,seat,agent,score,end,luck,kind,nights,"
                                   "first_price,run,settings,files,missed,number")
        self.assertEqual(lines[1], '1,0,0,"a ""b"", c",110,hung,-3,served,0,0,1,,,,1')
        self.assertEqual(lines[-2], '0a1b,2,7,"a ""b"", c",103,hung,-3,turns2,2.625,318.25,4,'
                                    "turns=40 rooms=16..16,0123456789ab,45,7")
        self.assertEqual((read_rows(text).rows, read_rows(text).told), (rows, []))
        for name in ("a,b", "x\u2028y", "x\x0by", "x\x85y", 'a "b"'):
            rows = [replace(each, agent=name) for each in game]
            self.assertEqual(read_rows(csv_of([HEAD]) + text_of(rows)).rows, rows)

    def test_each_end_and_each_kind_has_its_word(self) -> None:
        self.assertEqual([end.value for end in Outcome],
                         ["played", "absent", "crashed", "hung", "killed", "refused"])
        self.assertEqual([kind.value for kind in Kind], ["served", "turns2", "unrepeatable2"])
        self.assertIs(Row("1", 0, 0, "a", 5, Outcome.PLAYED, 0).kind, Kind.SERVED)

    def test_other_texts_are_refused_and_other_rows_left_out(self) -> None:
        head = csv_of([HEAD])
        old = "deal,rotation,seat,agent,score,end,luck,kind"
        for text in (text_of(SWAPPED), "seed,seat,agent,score\n1,0,a,5\n", old + "\n",
                     old + ",nights,first_price,run,settings,files\n"):
            with self.assertRaisesRegex(CommandError, "line 1 is not the head.* of this version"):
                read_rows(text)
        whole = "1,0,0,a,5,played,100,served,0,0,1,,,,1\n"
        for text in ("1,0,0,a,5,played,100\n", whole.replace("5", "x"),
                     whole.replace("played", "won"), whole.replace("served", "x"),
                     whole.replace("0,0,1", "x,0,1")):
            found = read_rows(head + text)
            self.assertEqual(found.rows, [])
            self.assertIn("line 2 is not a row", found.told[0])


def words_of(summary: Summary) -> List[str]:
    """The lines of its text, with a space between words."""
    return [" ".join(line.split()) for line in as_text(summary).splitlines()]


class Texts(unittest.TestCase):
    def setUp(self) -> None:
        rows = [*SWAPPED, row("2", 1, 2, "c", 7, Outcome.ABSENT)]
        self.summary = summarize(rows, ["game 7.0 is lost: why"])

    def test_columns_without_room_stand_below(self) -> None:
        rows = [["agent", "mean", "luck", "seats"], ["a", "1000", "12", "3"]]
        self.assertEqual(columns(rows), ["agent  mean  luck  seats", "a      1000    12      3"])
        self.assertEqual(columns(rows, 17), ["agent  mean  luck", "a      1000    12", "",
                                             "agent  seats", "a          3"])
        self.assertEqual(columns(rows, 3)[::3], ["agent  mean", "agent  luck", "agent  seats"])

    def test_a_summary_fits_a_terminal(self) -> None:
        summary = summarize([row("1", rotation, seat, name, 100 * seat) for rotation in range(2)
                             for seat, name in enumerate("abc")], detect=100)
        self.assertGreater(max(map(len, as_text(summary).splitlines()[:9])), 80)
        tables = [line for line in as_text(summary, 80).splitlines() if "  " in line]
        self.assertLessEqual(max(map(len, tables)), 80)

    def test_text(self) -> None:
        lines = words_of(self.summary)
        self.assertTrue(lines[0].startswith("4 games of 2 deals"))
        for line in ("a 200 +- 381 200 +- 381 100 - 0 of 4", "c 7 +- ?* - 100 - 1 of 1: 1 absent",
                     "* includes seats that nobody took, with the scores of their logs",
                     "a less b, by clients 40 +- 254 +- 254 - 2 0.295 0.295 0.500",
                     "a less c, by games 223 +- ? ? - 1 - - -"):
            self.assertIn(line, lines)
        self.assertEqual(lines[-1], "game 7.0 is lost: why")
        for rows, part in ((SWAPPED, "difference, by clients that both had"),
                           (SWAPPED[:1], "1 game of 1 deal;"), (SWAPPED[:1], "110 +- ?"),
                           (SWAPPED[:2], "difference, by games")):
            self.assertIn(part, as_text(summarize(rows)))
        self.assertNotRegex(as_text(summarize(SWAPPED)), r"\*|Holm")

    def test_nothing_has_no_sign(self) -> None:
        self.assertEqual(number_text(Estimate(-0.3, 1.6, 4)), "0 +- 2")
        self.assertEqual(number_text(Estimate(-0.7, None, 1)), "-1 +- ?")

    def test_cells_stand_below_one_another_the_names_to_the_left(self) -> None:
        lines = as_text(summarize(games_of(a=(2000, 4000), longest=(-3, -6)))).splitlines()
        for table in (lines[2:5], lines[6:8]):
            self.assertEqual(len({len(line) for line in table}), 1, table)
            place = table[0].index("mean") + len("mean")
            for line in table[1:]:
                self.assertNotEqual((line[0], line[place - 1]), (" ", " "), line)
                self.assertEqual(line[place:place + 2], "  ", line)

    def test_why_seats_did_not_play_is_told_in_one_order(self) -> None:
        ends = [Outcome.REFUSED, Outcome.HUNG, Outcome.CRASHED, Outcome.PLAYED, Outcome.HUNG]
        rows = [row("1", 0, seat, "a", 7, end) for seat, end in enumerate(ends)]
        self.assertIn(" 4 of 5: 1 crashed, 2 hung, 1 refused\n", as_text(summarize(rows)))
        self.assertEqual(json.loads(as_json(summarize(rows)))["agents"][0]["ends"],
                         {"played": 1, "crashed": 1, "hung": 2, "refused": 1})

    @needs_study
    def test_all_columns(self) -> None:
        # Points on a line: b has 1 more than its luck, and a made game has a luck of 2153.43.
        rows = [replace(each, luck=luck) for each, luck in
                zip(games_of(a=(6, 12, 40), b=(1, 5, 13)), (2, 0, 6, 4, 24, 12))]
        lines = words_of(summarize(rows))
        self.assertEqual(lines[2], "agent mean of seats that played luck mean adjusted for the "
                                   "draw did not play")
        self.assertRegex(lines[3], r"^a 19 \+- \d+ 19 \+- \d+ 11 \S+ \+- \S+ 0 of 3$")
        self.assertRegex(lines[4], r"^b 6 \+- \d+ 6 \+- \d+ 5 2154 \+- 0 0 of 3$")
        self.assertEqual(lines[6], "difference, by games mean adjusted for the draw deals p "
                                   "(Student) p (Wilcoxon)")
        self.assertRegex(lines[7], r"^a less b 13 \+- \d+ \S+ \+- \S+ 3 0\.\d+ 0\.250$")
        value = json.loads(as_json(summarize(rows)))
        self.assertEqual((value["level"], value["lost"]), (0.95, []))
        a, b = value["agents"]
        self.assertEqual((a["agent"], b["agent"], b["seats"], b["score"]["count"]),
                         ("a", "b", 3, 3))
        for found, due in ((b["luck"], 16 / 3), (b["adjusted"]["mean"], 2154.43),
                           (b["adjusted"]["half"], 0.0)):
            self.assertAlmostEqual(found, due)
        told = value["differences"][0]
        self.assertEqual((told["first"], told["second"], told["score"]["mean"],
                          told["adjusted"]["count"]), ("a", "b", 13.0, 3))

    def test_games_in_turns_are_counted(self) -> None:
        rows = [row(deal, 0, seat, "a", 5, kind=kind) for deal, kind in
                (("1", Kind.TURNS), ("2", Kind.TURNS), ("3", Kind.UNREPEATABLE), ("4", Kind.SERVED))
                for seat in range(8)]
        summary = summarize(rows)
        self.assertEqual(summary.kinds, {Kind.TURNS: 2, Kind.UNREPEATABLE: 1, Kind.SERVED: 1})
        self.assertEqual(as_text(summary).split("\n")[1], "in turns: 2 games that can be repeated, "
                         "and 1 in which an agent was passed over")
        self.assertEqual(as_text(summarize(rows[:8])).split("\n")[1],
                         "in turns: 1 game that can be repeated")
        self.assertIn("1 game that can be repeated, and 1 in which", as_text(summarize(rows[8:])))
        self.assertNotIn("in turns", as_text(self.summary))
        self.assertEqual(json.loads(as_json(summary))["kinds"],
                         {"turns2": 2, "unrepeatable2": 1, "served": 1})

    def test_several_pairs_have_columns_that_allow_for_all(self) -> None:
        summary = summarize(games_of(a=(90, 91, 92, 90), b=(50, 52, 51, 50), c=(50,) * 4))
        lines = words_of(summary)
        self.assertEqual(lines[7], "difference, by games mean all pairs adjusted for the draw "
                                   "deals p (Student) p (Holm) p (Wilcoxon)")
        self.assertRegex(lines[8], r"^a less b 40 \+- \d+ \+- \d+ - 4 0\.000 0\.000 0\.125$")
        self.assertEqual(lines[11:13], [
            "all pairs: intervals that together hold for all 3 comparisons (Bonferroni); p (Holm) "
            "allows for all of them, too",
            "not separated, with p (Holm) above 0.05: b, c"])
        pair, value = summary.differences[0], json.loads(as_json(summary))
        told = value["differences"][0]
        self.assertEqual((told["bonferroni"], told["student"], told["holm"], told["wilcoxon"]),
                         (pair.bonferroni, pair.student, pair.holm, pair.wilcoxon))
        self.assertEqual(value["groups"], [["a"], ["b", "c"]])

    @needs_study
    def test_how_many_games_tell_a_difference(self) -> None:
        summary = summarize(SWAPPED, detect=100)
        pair = summary.differences[0]
        assert pair.score is not None and pair.needed is not None
        self.assertEqual(pair.needed, deals_to_detect(pair.score, 100))
        lines = words_of(summary)
        self.assertTrue(lines[-3].endswith("p (Wilcoxon) games to detect 100"))
        self.assertTrue(lines[-2].endswith(f" 0.500 {2 * pair.needed}"))
        self.assertEqual(lines[-1], "with so many games, 80 % of experiments detect a difference "
                                    "of 100 dollars, for the largest spread that these games leave "
                                    "possible (80 % upper limit)")
        self.assertEqual(json.loads(as_json(summary))["differences"][0]["needed"], pair.needed)
        self.assertRegex(as_text(summarize(SWAPPED[:2], detect=100)), r"(?m)^b less a .* - +\?$")

    def test_what_the_games_do_not_tell_has_a_line_each(self) -> None:
        def told(rows: List[Row]) -> List[str]:
            lines = as_text(summarize(rows)).splitlines()
            return [line for line in lines[lines.index("", 2) + 1:] if "numpy" not in line]

        half = [replace(each, settings="rotations=2") for each in SWAPPED[2:]]
        for rows, line in (
                ([row(deal, 0, 0, "a", 5) for deal in "12"],
                 "one agent: there is nothing to compare"),
                (SWAPPED[:4], "one deal: there are no intervals"),
                (half, "1 deal not played whole: some clients count for some agents alone"),
                (half, "a less b: 1 deal left out, without a client of both"),
                ([row("1", 0, 0, "a", 7), row("2", 0, 0, "b", 5)], "a less b: no deal of both")):
            self.assertIn(line, told(rows))

    def test_without_the_libraries_the_rest_is_there_and_a_line_tells_how_to_get_them(self) -> None:
        with mock.patch("geesefuton.experiments.comparisons.find_spec", return_value=None):
            text = as_text(summarize(SWAPPED, detect=100))
        self.assertIn("a less b", text)
        last = text.splitlines()[-1]
        self.assertIn("need numpy and scipy and pandas: install them by `apt-get", last)
        self.assertIn("pip install", last)

    def test_names_do_not_break_lines_or_cells(self) -> None:
        names = ["a,b", "NA", "x\u2028y", "x\ny", "", "\x85", 'q"']
        summary = summarize(games_of(**{name: (10 * seat + 1, 10 * seat + 2)
                                        for seat, name in enumerate(names)}))
        lines = as_text(summary).splitlines()
        self.assertEqual(len(lines), len(as_text(summary).split("\n")) - 1)
        self.assertIn("x\\u2028y", "".join(lines))
        self.assertEqual(sorted(line["entrant"] for line in read_csv(as_grades(summary))),
                         sorted(names))

    def test_json(self) -> None:
        value = json.loads(as_json(self.summary))
        self.assertEqual((value["games"], value["deals"]), (4, 2))
        self.assertEqual([pair["by_clients"] for pair in value["differences"]],
                         [True, False, False])
        first, _, third = value["agents"]
        self.assertEqual((first["score"]["mean"], first["played"]), (200.0, first["score"]))
        self.assertEqual((third["score"]["mean"], third["played"], third["ends"]),
                         (7.0, None, {"absent": 1}))
        self.assertEqual(value["differences"][0]["score"]["count"], 2)
        self.assertEqual(value["lost"], ["game 7.0 is lost: why"])

    def test_nothing_played(self) -> None:
        for form in (as_text, as_json, as_grades):
            form(summarize([], ["all is lost"]))

    def test_grades_have_the_groups_that_are_not_separated(self) -> None:
        rows = games_of(**{"a,b": (3000, 3002, 3004) * 4, "c": (2990, 2999, 3008) * 4,
                           "d": (100, 101, 102) * 4})
        rows[2] = replace(rows[2], end=Outcome.CRASHED)
        self.assertEqual(as_grades(summarize(rows)).splitlines(), [
            "entrant,mean,low,high,groups,games_not_finished",
            '"a,b",3002.00,3000.92,3003.08,A,0', "c,2999.00,2994.12,3003.88,A,0",
            "d,101.00,100.46,101.54,B,1"])
        self.assertEqual(as_grades(summarize(games_of(a=[300], b=[400]))).splitlines()[1:],
                         ["b,400.00,,,A,0", "a,300.00,,,A,0"])  # one deal has no interval
