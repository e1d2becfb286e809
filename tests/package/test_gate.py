"""Tests of the policy of admission, by a clock that the tests move."""

import ipaddress
import unittest
from typing import List, Optional
from unittest import mock

from geesefuton import link
from geesefuton.network.gate import (AHEAD, LINE, LINK, LONGEST, WAITING, WRONG, Gate, Standing,
                                     Visit, most_links)


class Gates(unittest.TestCase):
    """A gate of ten links, of which four may be strangers of one network and three are kept."""

    def setUp(self) -> None:
        self.now = 100.0
        self.gate = Gate(lambda: self.now, most=10, each=4, kept=3, first=30.0, own=2)
        self.ended: List[Visit] = []

    def arrive(self, address: str) -> Optional[Visit]:
        visit = self.gate.arrive(address)
        if visit is not None:
            visit.end = lambda: self.ended.append(visit)
        return visit

    def come(self, *addresses: str) -> List[Visit]:
        """Links that are all let in."""
        visits = [self.arrive(address) for address in addresses]
        assert None not in visits
        return [visit for visit in visits if visit]

    def test_many_networks_are_seldom_looked_through(self) -> None:
        lines, times = self.gate.lines, 0
        kept = lines._until
        for number in range(3000):
            lines.put_off(str(number), LINE)
            times, kept = times + (lines._until is not kept), lines._until
        self.assertLess(times, 5)
        self.now += LINE  # none of them is put off any longer
        for number in range(2000):
            lines.put_off(f"again {number}", LINE)
        self.assertLess(len(lines._until), 3000)

    def test_a_flood_is_refused_before_it_costs_a_place(self) -> None:
        at_once = round(AHEAD / LINK)
        for text in ("10.0.0.1", "127.0.0.1", "2001:db8::{:x}", "::ffff:10.0.0.1"):
            with self.subTest(text=text):
                self.setUp()
                came = [self.arrive(text.format(number)) for number in range(1000)]
                self.assertEqual(list(map(bool, came)),
                                 [True] * at_once + [False] * (1000 - at_once))
                self.assertEqual(len(self.ended), at_once - 4)
                self.assertTrue(self.arrive("10.0.0.2"))
                for _ in range(20):  # while it goes on, as many come in as are served with ease
                    came = [self.arrive(text.format(number)) for number in range(3)]
                    self.now += LINK
                    self.assertLessEqual(sum(map(bool, came)), 1)
                self.now += AHEAD
                self.come(*[text.format(1)] * at_once)

    def test_who_makes_room(self) -> None:
        """The eldest of the largest crowd; places are kept for this machine and those who are
        known."""
        six = [f"2001:db8::{number}" for number in range(6)]  # of one network, by their first half
        own = [*(f"10.0.1.{number}" for number in range(7)), "::1", "::1", "::1"]
        for addresses, due in (
                (["10.0.0.1"] * 5, [0]), (six, [0, 1]), ([*six, "2001:db8:0:1::1"], [0, 1]),
                ([*six, "::ffff:10.0.0.1"], [0, 1]), (own, []), ([*own, "10.0.1.9"], [0]),
                (["10.0.0.1"] * 4 + [f"10.0.0.{number}" for number in range(2, 6)], [0])):
            self.setUp()
            visits = self.come(*addresses)
            self.assertEqual(self.ended, [visits[place] for place in due], addresses)

    def test_a_network_is_banned(self) -> None:
        for text in ("2001:db8::/64", "10.0.0.7"):
            self.gate.banned.add(ipaddress.ip_network(text))
        self.assertEqual([bool(self.arrive(each)) for each in (
            "2001:db8::5", "::ffff:10.0.0.7", "10.0.0.8", "2001:db8:0:1::5")],
            [False, False, True, True])

    def test_a_first_line_has_a_total_time(self) -> None:
        visit, = self.come("10.0.0.1")
        self.assertEqual(visit.deadline, 130.0)
        self.assertEqual(visit.whole(), 0.0)
        self.assertEqual(visit.deadline, float("inf"))

    def test_one_that_parts_makes_room(self) -> None:
        visits = self.come(*["10.0.0.1"] * 5)
        self.assertEqual(visits[0].standing, Standing.GONE)
        visits[3].part()
        self.come("10.0.0.1")
        self.assertEqual(self.ended, [visits[0], visits[3]])

    def test_links_that_part_count_until_they_leave(self) -> None:
        visits = self.come(*["10.0.0.1"] * 4)
        visits[0].refuse()
        visits[0].leave()
        self.come("10.0.0.1")
        self.assertEqual(self.ended, [])
        visits[1].refuse()
        self.come("10.0.0.1")
        self.assertEqual(self.ended, visits[1:2])
        visits[1].leave()  # a second time

    def test_known_links_count_by_their_word_and_not_by_their_network(self) -> None:
        players = self.come(*["10.0.0.1"] * 4)
        self.assertTrue(all(player.know(f"seat{number}") for number, player in enumerate(players)))
        self.come(*["10.0.0.1"] * 9)
        self.assertTrue(all(player.is_known() for player in players))
        more = self.come(*["10.0.0.2"] * 2)
        self.assertEqual([visit.know("seat0") for visit in more], [True, False])
        players[0].leave()
        self.assertTrue(more[1].know("seat0"))

    def test_places_are_kept_for_this_machine_and_for_those_who_are_known(self) -> None:
        self.come(*(f"10.0.1.{number}" for number in range(7)), "::1", "::1", "::1")
        self.assertEqual(self.ended, [])
        self.come("10.0.1.9")
        self.assertEqual(len(self.ended), 1)

    def test_places_that_are_kept_for_this_machine_are_never_given_to_others(self) -> None:
        for player in self.come("10.1.0.1", "10.1.0.2"):
            player.know("seat0")
        own = self.come("127.0.0.1", "::1")
        own[0].whole()
        own[1].part()
        others = self.come(*(f"10.0.{number}.1" for number in range(170)))
        self.assertFalse({*own} & {*self.ended})
        for visit in others[-6:]:
            visit.whole()
        count = len(self.ended)
        self.come("::1")  # it takes one of theirs if none is free, even one that waits
        self.assertEqual(self.ended[count:], others[-6:-5])

    def test_a_crowd_of_this_machine_keeps_no_others_out(self) -> None:
        own = self.come(*(f"127.0.0.{number}" for number in range(10)))
        self.come("127.0.1.1")
        self.assertEqual(self.ended, own[:1])
        others = self.come("10.0.0.1", "10.0.0.2")
        self.come(*(f"127.0.2.{number}" for number in range(10)))
        self.assertFalse({*others} & {*self.ended})
        for visit in [visit for crowd in self.gate._crowds.values() for visit in crowd]:
            visit.whole()
        self.come(*(f"10.0.1.{number}" for number in range(5)))
        self.assertFalse({*others} & {*self.ended})

    def test_lines_that_are_judged_make_room_only_in_the_largest_crowd_for_a_smaller(self) -> None:
        for visit in self.come(*["10.0.0.1"] * 4):
            visit.whole()
        self.assertIsNone(self.arrive("10.0.0.1"))
        self.assertIsNotNone(self.arrive("10.0.0.2"))
        self.setUp()
        crowd = self.come(*(f"10.0.0.{number}" for number in (1, 1, 1, 2, 2, 3, 3)))
        for visit in crowd:
            visit.whole()
        self.come("10.0.0.9")
        self.assertEqual(self.ended, crowd[:1])

    def guess(self, address: str = "10.0.0.1") -> Optional[float]:
        """A wrong word comes, and leaves at once: how long it waited."""
        visit, = self.come(address)
        wait = visit.whole()
        visit.refuse()
        visit.leave()
        return wait

    def test_a_class_behind_one_router_does_not_wait(self) -> None:
        for number in range(40):
            visit, = self.come("10.0.0.1")
            self.assertEqual(visit.whole(), 0.0)
            visit.know(f"seat{number}")
            visit.leave()

    def test_wrong_words_make_the_next_ones_wait_and_others_not(self) -> None:
        self.assertEqual([self.guess() for _ in range(8)], [0.0] * 8)
        right, = self.come("10.0.0.1")
        self.assertEqual(right.whole(), LINE)  # whatever it says
        right.leave()
        self.assertEqual(self.guess("10.0.0.2"), 0.0)
        self.now += 10 * (LINE + WRONG)
        self.assertEqual(self.guess(), 0.0)

    def test_no_line_waits_for_very_long_and_few_wait(self) -> None:
        for _ in range(50):
            self.guess()
        self.assertEqual(self.guess(), LONGEST)
        self.assertLess(LONGEST + 2, link.TRY)  # an agent that reconnects waits for longer
        self.gate = Gate(lambda: self.now, 100, 50, 3, 30.0)
        for _ in range(30):
            self.guess()
        waits = [visit.whole() for visit in self.come(*["10.0.0.1"] * (WAITING + 2))]
        self.assertEqual(waits[WAITING:], [None, None])
        self.assertNotIn(None, waits[:WAITING])

    def test_one_that_is_known_may_show_another_word(self) -> None:
        for _ in range(3):
            visit, = self.come("10.0.0.1")
            self.assertTrue(visit.know("token"))
            self.assertEqual(visit.whole(), 0.0)
            visit.refuse()
            visit.leave()
        self.assertEqual((sum(self.gate._known.values()), self.gate._crowds), (0, {}))

    def test_a_line_that_is_not_judged_puts_off_none(self) -> None:
        for _ in range(200):
            visit, = self.come("10.0.0.1")
            visit.whole()
            visit.leave()
        self.assertEqual(self.guess(), 0.0)

    def test_the_limit_of_open_files_leaves_fewer(self) -> None:
        few = Gate(lambda: 0.0, most=2, each=9, kept=50, first=1.0)  # some are left for strangers
        self.assertIsNotNone(few.arrive("10.0.0.1"))
        for soft, most in ((1024, 200), (100, 52), (10, 1), (-1, 200)):
            with mock.patch("resource.getrlimit", return_value=(soft, soft)):
                self.assertEqual(most_links(200, 48), most)
