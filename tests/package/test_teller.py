"""What the host is told, events as lines of JSON, and how floods of links are counted."""

import json
import re
import threading
import unittest
from datetime import datetime
from typing import List, Sequence, get_args
from unittest import mock

from geesefuton import program
from geesefuton.hosting import events
from geesefuton.hosting.events import End, Event, EventQueue, json_of
from geesefuton.hosting.refusals import AGAIN, OTHERS, Refusals
from geesefuton.hosting.teller import Teller
from tests.package.cases import MOST, Case

WORDS = [f"seat{number}" for number in range(8)]
PART = re.compile(r"(! )?(\d\d:\d\d:\d\d) (.*)")
AT = 1795906748.25
ROWS = [
    (events.Arrived(AT, 3, "red7k", "10.0.0.7"),
     {"event": "arrived", "at": AT, "seat": 3, "word": "red7k", "source": "10.0.0.7"}),
    (events.Departed(AT, 3, "red7k"), {"event": "departed", "at": AT, "seat": 3, "word": "red7k"}),
    (events.Refused(AT, "10.0.0.7", "wrongword", 'hey "\x1b\xff\n'),
     {"event": "refused", "at": AT, "source": "10.0.0.7", "answer": "wrongword",
      "line": 'hey "\x1b\xff\n'}),
    (events.Lost(AT, "10.0.0.7", "said nothing"),
     {"event": "lost", "at": AT, "source": "10.0.0.7", "why": "said nothing"}),
    (events.Waived(AT, "red7k"), {"event": "waived", "at": AT, "word": "red7k"}),
    (events.Began(AT, (0, 3)), {"event": "began", "at": AT, "seats": [0, 3]}),
    (events.Ticked(AT, 1, (5, 0, 0, 0, 0, 0, 0, 7)),
     {"event": "ticked", "at": AT, "tick": 1, "lines": [5, 0, 0, 0, 0, 0, 0, 7]}),
    (events.Rejoined(AT, 3, "red7k", "10.0.0.8"),
     {"event": "rejoined", "at": AT, "seat": 3, "word": "red7k", "source": "10.0.0.8"}),
    (events.Ended(AT, 3, "red7k", End.LEFT, 812),
     {"event": "ended", "at": AT, "seat": 3, "word": "red7k", "reason": "left", "lines": 812}),
    (events.Finished(AT, 0, None), {"event": "finished", "at": AT, "status": 0, "log": None,
                                    "vouched": []}),
    (events.Warned(AT, "the page has ended"),
     {"event": "warned", "at": AT, "text": "the page has ended"}),
    (events.Answered(AT, "seat3 is missing"),
     {"event": "answered", "at": AT, "text": "seat3 is missing"}),
]


def parts_of(*happened: Event) -> List[Sequence[str]]:
    """Of each line whether it is marked, its time, and its text."""
    told, now = list[str](), [0.0]
    with mock.patch("geesefuton.hosting.teller.tell", told.append):
        teller = Teller(WORDS, lambda: now[0])
        for event in happened:
            now[0] = event.at
            teller.tell(event)
        teller.close()
    parts = [PART.fullmatch(line) for line in told]
    assert all(parts), told
    return [part.groups("") for part in parts if part]


def texts_of(*happened: Event) -> List[str]:
    return [text for _, _, text in parts_of(*happened)]


class Texts(Case):
    def test_a_game(self) -> None:
        self.assertEqual(texts_of(
            events.Arrived(0.0, 1, "seat1", "10.0.0.7"), events.Departed(0.0, 1, "seat1"),
            events.Arrived(0.0, 3, "seat3", "10.0.0.6"),
            events.Rejoined(0.0, 1, "seat1", "10.0.0.8"),
            events.Arrived(0.0, 4, "seat4", "10.0.0.5"), events.Waived(0.0, "seat2"),
            events.Began(0.0, (1,)), events.Ticked(0.0, 5, (1,) * 8),
            events.Ticked(0.0, 6, tuple(range(8))), events.Warned(0.0, "mind the gap"),
            events.Ended(0.0, 1, "seat1", End.HUNG, 17), events.Finished(0.0, 130, None),
            events.Finished(0.0, 6, "my.log")), [
            "seat1 is here from 10.0.0.7; missing: seat0 seat2 seat3 seat4 seat5 seat6 seat7",
            "seat1 lost its link, and may reconnect",
            "seat3 is here from 10.0.0.6; missing: seat0 seat1 seat2 seat4 seat5 seat6 seat7",
            "seat1 is back, from 10.0.0.8",
            "seat4 is here from 10.0.0.5; missing: seat0 seat2 seat5 seat6 seat7",
            "no longer waiting for seat2",
            "the game begins without seat0 seat2 seat3 seat4 seat5 seat6 seat7",
            "tick 6 of 54; lines: seat0 0 seat1 1 seat2 2 seat3 3 seat4 4 seat5 5 seat6 6 seat7 7",
            "mind the gap", "seat1 still had its link long after the last tick, 17 lines",
            "the game is over, exit status 6: a tick lapsed; the scores stand; the log is in my.log"
        ])

        here = [events.Arrived(0.0, seat, word, "h") for seat, word in enumerate(WORDS)]
        told = texts_of(*here, events.Began(0.0, tuple(range(8))), events.Finished(0.0, 0, None))
        self.assertEqual(told[-4:], ["seat6 is here from h; missing: seat7",
                                     "seat7 is here from h; missing: nobody", "the game begins",
                                     "the game is over, exit status 0"])

    def test_why_seats_are_over_and_what_an_exit_status_means(self) -> None:
        told = texts_of(*(events.Ended(0.0, 2, "seat2", reason, 3) for reason in End))
        self.assertEqual(dict(zip(End, told)), {
            End.LEFT: "seat2 has left, 3 lines",
            End.GONE: "seat2 lost its link and did not reconnect, 3 lines",
            End.HUNG: "seat2 still had its link long after the last tick, 3 lines",
            End.ABSENT: "seat2 never connected, 3 lines",
            End.REFUSED: "seat2 sent only lines that were refused, 3 lines"})
        for status in (1, 2, 3, 4, 5, 6, 7):
            self.assertEqual(texts_of(events.Finished(0.0, status, None)),
                             [f"the game is over, exit status {status}: "
                              f"{program.MEANINGS[status]}"])
        self.assertEqual(texts_of(events.Finished(0.0, 137, "l")),
                         ["the game is over, exit status 137; the log is in l"])

    def test_ticks_are_told_every_six(self) -> None:
        told = texts_of(*(events.Ticked(0.0, tick, (0,) * 8) for tick in range(1, 55)))
        self.assertEqual([text.split(" of 54; ")[0] for text in told],
                         [f"tick {tick}" for tick in range(6, 55, 6)])

    def test_how_many_links_are_vouched_for(self) -> None:
        said = [f"vouched {seat} whole 3" for seat in range(8)]
        other = ["unvouched welcome", *said[1:7], "unvouched line 4"]
        self.assertEqual(
            texts_of(events.Finished(0.0, 0, "l", tuple(said)),
                     events.Finished(0.0, 9, None, tuple(other))),
            ["the game is over, exit status 0; vouched 8 of 8; the log is in l",
             "the game is over, exit status 9: the log is not sound, or not right about a link; "
             "vouched 6 of 8 (seat0: unvouched welcome; seat7: unvouched line 4)"])

    def test_refusals_are_told_once_in_ten_seconds_for_each_address(self) -> None:
        def refused(at: float, source: str, answer: str = "taken") -> events.Refused:
            return events.Refused(at, source, answer, "hello seat1")

        told = texts_of(refused(20, "h"), refused(26, "i"), refused(27, "h", "syntax"),
                        refused(29.9, "h"), events.Lost(31, "k", "it sent no line"),
                        refused(39, "h"), events.Lost(45, "i", "it ended before its first line"))
        due, last = "{} {} as taken: it sent 'hello seat1'", "took no seat; the last:"
        self.assertEqual(told, [
            due.format("refused", "h"), due.format("refused", "i"),
            due.format(f"2 more links from h {last} refused", "h"),
            "lost a link from k: it sent no line", due.format("refused", "h"),
            "lost a link from i: it ended before its first line"])

    def test_a_flood_of_guesses_and_connects_is_a_few_lines(self) -> None:
        flood: List[Event] = []
        for number in range(2000):
            flood.append(events.Refused(number / 100, "h", "wrongword", f"hello word{number}"))
            flood.append(events.Lost(number / 100, "h", "it ended before its first line"))
            flood.append(events.Lost(number / 100, f"10.0.{number % 250}.{number // 250}", "none"))
        told = texts_of(*flood)
        self.assertLess(len(told), 200)
        self.assertRegex("\n".join(told), "[0-9]{3} more links from other addresses took no seat")

    def test_one_that_comes_and_goes_is_a_few_lines(self) -> None:
        comings: List[Event] = []
        for number in range(500):
            at = number / 100
            comings += [events.Arrived(at, 1, "seat1", "h"), events.Departed(at, 1, "seat1")]
        told = texts_of(*comings, events.Arrived(9.0, 2, "seat2", "i"))
        self.assertEqual(len(told), 8)
        self.assertIn("seat2 is here from i; missing: seat0 seat1 seat3", told[6])
        self.assertEqual(told[7], "994 more times seat1 came or went; the last: seat1 lost its "
                                  "link, and may reconnect")

    def test_what_recurs_is_told_by_a_clock_though_nothing_more_happens(self) -> None:
        told, now = list[str](), [0.0]
        self.patch("hosting.teller.tell", told.append)
        self.patch("hosting.teller.LOOK", 0.01)
        teller = Teller(WORDS, lambda: now[0])
        for at in (10_000.0, 6_400.0):  # the time of the day may go back
            teller.tell(events.Lost(at, "h", "it sent no line"))
        now[0] = 20.0
        self.until(lambda: len(told) == 2)
        self.assertEqual([line[:2] for line in told], ["! ", "! "])
        teller.close()

    def test_only_faults_are_marked_and_each_line_has_its_time(self) -> None:
        at = 1_700_000_000.0
        faults = [events.Departed(at, 1, "seat1"), events.Refused(at, "h", "taken", "x"),
                  events.Lost(at, "i", "it sent no line"),
                  events.Warned(at, "mind")]
        others = [events.Arrived(at, 1, "seat1", "h"), events.Rejoined(at, 1, "seat1", "h"),
                  events.Waived(at, "seat1"), events.Began(at, ()), events.Ticked(at, 6, (0,) * 8),
                  events.Ended(at, 1, "seat1", End.LEFT, 0), events.Finished(at, 0, None)]
        self.assertEqual([mark for mark, _, _ in parts_of(*faults, *others)],
                         ["! "] * len(faults) + [""] * len(others))
        clock = datetime.fromtimestamp(at).strftime("%H:%M:%S")
        self.assertEqual({told for _, told, _ in parts_of(*faults, *others)}, {clock})


class Threads(Case):
    """A terminal that is held."""

    def setUp(self) -> None:
        self.told, self.came, self.held = list[str](), threading.Event(), threading.Event()
        self.addCleanup(self.held.set)
        self.patch("hosting.teller.tell", lambda line: (
            self.came.set(), self.held.wait(MOST), self.told.append(line)))
        self.teller = Teller(WORDS)

    def test_it_holds_nobody(self) -> None:
        self.teller.tell(events.Warned(0.0, "mind"))
        before = datetime.now().strftime("%H:%M:%S")
        self.teller.say("the gap")
        clocks = (before, datetime.now().strftime("%H:%M:%S"))
        self.assertEqual(self.told, [])
        self.held.set()
        self.teller.close()
        self.assertEqual(len(self.told), 2)
        self.assertIn(self.told[1], [f"{clock} the gap" for clock in clocks])
        self.assertFalse(self.teller._thread.is_alive())

    def test_nor_does_it_hold_the_end(self) -> None:
        self.teller.say("mind")
        self.assertTrue(self.came.wait(MOST))
        with mock.patch.object(self.teller._thread, "join", return_value=None) as join:
            self.teller.close()
        self.assertLessEqual(join.call_args[0][0], 5.0)  # seconds
        self.assertTrue(self.teller._thread.daemon)

    def test_a_flood_does_not_wait_for_it(self) -> None:
        for _ in range(5000):
            self.teller.tell(events.Refused(0.0, "10.0.0.7", "syntax", "x"))
            self.teller.tell(events.Lost(0.0, "10.0.0.8", "it ended"))
        self.assertLess(self.teller._told.qsize(), 2000)
        self.teller.tell(events.Warned(0.0, "mind the gap"))
        self.held.set()
        self.teller.close()
        self.assertTrue(any("mind the gap" in text for text in self.told))


class Counting(Case):
    def setUp(self) -> None:
        self.refusals = Refusals()

    def test_the_first_is_told_at_once_and_the_others_after_a_while(self) -> None:
        self.assertEqual(self.refusals.add(100.0, "h", "one"), "one")
        self.assertIsNone(self.refusals.add(101.0, "h", "two"))
        self.assertEqual(self.refusals.due(100.0 + AGAIN - 0.1), [])
        self.assertEqual(self.refusals.due(100.0 + AGAIN), ["two"])
        for text in ("three", "four"):
            self.assertIsNone(self.refusals.add(111.0, "h", text))
        self.assertEqual(self.refusals.due(119.9), [])
        self.assertEqual(self.refusals.due(120.0),
                         ["2 more links from h took no seat; the last: four"])
        self.assertEqual(self.refusals.due(130.0), [])
        self.assertEqual(self.refusals.add(130.0, "h", "five"), "five")

    def test_each_address_counts_for_itself(self) -> None:
        for source in ("h", "i"):
            self.assertEqual(self.refusals.add(1.0, source, source), source)
            self.refusals.add(2.0, source, f"more from {source}")
        self.assertEqual(self.refusals.due(20.0), ["more from h", "more from i"])

    def test_only_so_many_addresses_are_kept(self) -> None:
        with mock.patch("geesefuton.hosting.refusals.MOST_ADDRESSES", 2):
            told = [self.refusals.add(1.0, source, f"by {source}") for source in "abcda"]
            self.assertEqual(told, ["by a", "by b", "by c", None, None])
            self.assertEqual(self.refusals.due(20.0), ["by a", "by d"])
            self.assertEqual(self.refusals.due(30.0), [])
            told = [self.refusals.add(31.0, source, f"by {source}") for source in "efgh"]
            self.assertEqual(told, ["by e", "by f", "by g", None])
        self.assertEqual(OTHERS, "other addresses")

    def test_a_clock_that_goes_back_silences_nobody(self) -> None:
        for _ in range(2):
            self.refusals.add(1000.0, "h", "again")
        self.assertEqual(self.refusals.due(900.0), ["again"])

    def test_a_few_are_told_at_once(self) -> None:
        few = Refusals(2, "{} of {}: {}")
        self.assertEqual([few.add(1.0, "h", text) for text in "abcd"], ["a", "b", None, None])
        self.assertEqual(few.due(11.0), ["2 of h: d"])
        self.assertIsNone(few.add(12.0, "h", "e"))


class Lines(unittest.TestCase):
    def test_each_event_is_one_line_of_json(self) -> None:
        for event, due in ROWS:
            with self.subTest(event=event):
                text = json_of(event)
                self.assertEqual((json.loads(text), text.isascii(), "\n" in text),
                                 (due, True, False))

    def test_no_event_is_forgotten(self) -> None:
        self.assertEqual({type(event) for event, _ in ROWS}, set(get_args(Event)))


class Queue(unittest.TestCase):
    def test_a_slow_listener_holds_nobody_and_what_it_raises_comes_at_the_end(self) -> None:
        told, held = list[Event](), threading.Event()

        def listen(event: Event) -> None:
            held.wait(60.0)
            told.append(event)
            raise OSError(f"fault {len(told)}")

        queue = EventQueue(listen)
        for event, _ in ROWS:
            queue.put(event)
        self.assertEqual(told, [])
        held.set()
        with self.assertRaisesRegex(OSError, "fault 1"):
            queue.close()
        self.assertEqual(told, [event for event, _ in ROWS])
