import queue
import threading
import time
from typing import Any, Callable, Dict, List
from unittest import mock

from geesefuton.link import Link
from geesefuton.playing.answers import Answer
from geesefuton.playing.seat import Seat, greeting
from geesefuton.records.replies import Request
from tests.package import cases
from tests.package.cases import MOST
from tests.package.seat_server import SeatServer

PACE = 0.08  # seconds from tick to tick


class Case(cases.Case):
    """A seat before a stand-in of the server."""

    def setUp(self) -> None:
        self.server = SeatServer()
        self.addCleanup(self.server.close)
        self.addCleanup(self.end)
        self.patch("playing.seat.MOST", 0.02)
        self.patch("playing.seat.LEAST", 0.02)
        self.patch("playing.seat.PAUSE", 0.0)
        self.patch("link.tell")
        self.seat = Seat(lambda: Link.greet("127.0.0.1", self.server.port, "red", limit=5), PACE)

    def end(self) -> None:
        """All closes, so the seat says `quit`."""
        self.server.closed = list(range(28))
        if self.seat.phase != "idle":
            self.wait(lambda state: state["phase"] in ("over", "failed"))

    def wait(self, holds: Callable[[Dict[str, Any]], bool]) -> Dict[str, Any]:
        states = [self.seat.state()]

        def is_so() -> bool:
            states.append(self.seat.state())
            return holds(states[-1])

        self.until(is_so, states)
        return states[-1]

    def reach(self, phase: str) -> Dict[str, Any]:
        return self.wait(lambda state: state["phase"] == phase)

    def begin(self) -> Dict[str, Any]:
        self.seat.begin()
        return self.reach("running")

    def look(self, line: str, count: int) -> List[str]:
        """What the server is asked until it was asked a line more often than so."""
        looks = len(self.server.heard)
        self.wait(lambda _: self.server.heard[looks:].count(line) > count)
        return self.server.heard[looks:]

    def bid(self, good: int, *points: Any) -> Answer:
        return self.seat.order(Request("bid", good, points)).result(MOST)


class Seats(Case):
    def test_a_seat_is_taken_once_it_is_begun(self) -> None:
        self.assertEqual(self.seat.phase, "idle")
        self.assertEqual(self.server.heard, [])
        self.server.units[20] = 2
        self.server.standing[20] = "((-1 90))"
        state = self.begin()
        self.assertEqual(state["clients"][0], [1, 5, 50, 1, 2, 0])
        self.assertEqual(state["goods"][20], [2, ((-1, 90),)])
        self.assertEqual(state["quotes"][0], [0, 300, False])
        self.seat.begin()
        self.assertEqual([line for line in self.server.heard if "hello" in line], ["hello red"])

    def test_one_that_is_refused_and_begins_again_and_again_greets_seldom(self) -> None:
        self.patch("playing.seat.PAUSE", 0.2)
        begun = time.monotonic()
        for _ in range(3):
            self.server.refusals["hello"] = "refused taken"
            self.seat.begin()
            self.reach("failed")
        self.assertGreaterEqual(time.monotonic() - begun, 0.4)
        self.assertEqual(self.server.heard, ["hello red"] * 3)

    def test_a_bid_stands_and_is_listed(self) -> None:
        self.begin()
        answer = self.bid(9, (2, 70))
        self.assertTrue(answer.is_done)
        self.assertEqual(answer.text, "Your bid stands: buy 2 at 70; it is decided at the closing.")
        state = self.wait(lambda state: bool(state["calls"]))
        self.assertEqual(state["goods"][9][1], ((2, 70),))
        self.assertEqual(state["calls"][0]["what"], "Shoreline Shanties, night 2: buy 2 at 70")
        self.assertEqual(self.seat.state()["goods"][9], [0, ((2, 70),)])

    def test_a_withdrawal_and_a_refusal_which_says_what_would_be_right(self) -> None:
        self.begin()
        self.bid(20, (-1, 70))
        self.assertTrue(self.seat.order(Request("withdraw", 20)).result(MOST).is_done)
        self.wait(lambda state: state["goods"][20][1] == ())
        self.server.refusals["bid 8"] = "@4 no belowquote 3 101 2"
        answer = self.bid(8, (2, 120))
        self.assertEqual((answer.is_done, answer.fix), (False, (3, 101)))
        self.assertIn("3 rooms at 101 dollars or more", answer.text)

    def test_what_stands_is_read_again_only_after_another_call(self) -> None:
        self.begin()
        self.bid(20, (1, 70))
        looks = len(self.server.heard)
        self.assertNotIn("own 20", self.look("quote 20", 2))
        self.server.units[20], self.server.standing[20], self.server.cash = 1, "()", -60
        self.server.call(20)
        state = self.wait(lambda state: state["goods"][20][0] == 1 and state["cash"] == -60)
        self.assertEqual(state["goods"][20], [1, ()])
        self.assertEqual(self.server.heard[looks:].count("own 20"), 1)

    def test_calls_of_a_hotel_are_kept_until_it_closes(self) -> None:
        self.begin()
        self.bid(8, (1, 70))
        self.server.call(8)
        self.assertNotIn("own 8", self.look("quote 8", 2))
        self.server.units[8], self.server.standing[8], self.server.cash = 1, "()", -40
        self.server.call(8)
        self.server.quotes[8][1] = 40
        self.server.closed.append(8)
        state = self.wait(lambda state: state["goods"][8][0] == 1)
        self.assertEqual(state["closed"], [(8, 40)])
        # The state counts a tick that is due by then, the clock only those that were seen.
        self.assertEqual((self.seat._clock.tick, state["exact"]), (6, True))

    def test_a_price_that_moves_is_a_tick_and_one_that_stays_is_none(self) -> None:
        self.begin()
        self.look("quote 7", 3)
        self.assertEqual(self.seat._clock.tick, 0)
        for tick in (1, 2):
            self.server.quotes[3][1] += 7
            self.wait(lambda _: self.seat._clock.tick >= tick)

    def test_where_nothing_stands_nothing_is_read(self) -> None:
        self.begin()
        for good in (8, 20):
            self.server.call(good)
        self.server.closed.append(8)
        self.assertFalse({"own 8", "own 20", "quote 8"} & set(self.look("quote 20", 3)[60:]))

    def test_how_long_the_server_has_not_answered(self) -> None:
        silent, send = list[float](), Link.send

        def slow(link: Link, request: Request) -> Any:
            if request.do == "bid":
                time.sleep(0.1)
                silent.append(self.seat.state()["silent"])
            return send(link, request)

        with mock.patch.object(Link, "send", slow):
            self.begin()
            self.bid(9, (1, 50))
        self.assertLessEqual(0.1, silent[0])
        self.end()
        self.assertEqual(self.seat.state()["silent"], 0)

    def test_looks_are_a_quarter_of_a_tick_apart_within_bounds(self) -> None:
        waits = list[float]()

        def get(timeout: float) -> None:
            waits.append(timeout)
            raise queue.Empty

        self.seat._orders = mock.Mock(get=get)
        with mock.patch.multiple("geesefuton.playing.seat", LEAST=0.2, MOST=2.0), \
                mock.patch("time.monotonic", return_value=100.0):
            for pace, took, due in ((4.0, 0.0, 1.0), (0.1, 0.0, 0.2), (60.0, 0.0, 2.0),
                                    (4.0, 1.5, 1.5)):
                self.seat._pace, self.seat._took, self.seat._looked = pace, took, 100.0
                self.seat._wait(mock.Mock())
                self.assertAlmostEqual(waits.pop(), due)

    def test_a_lost_link_is_connected_again_and_a_bid_on_it_may_have_been_admitted(self) -> None:
        self.begin()
        self.server.refusals["quote 5"] = ""
        self.wait(lambda _: self.server.heard.count("hello red") == 2)
        self.assertTrue(self.bid(0, (1, 400)).is_done)
        self.server.refusals["bid 9"] = ""
        answer = self.bid(9, (1, 50))
        self.assertFalse(answer.is_done)
        self.assertIn("The link was lost before this was answered", answer.text)
        self.assertEqual(self.seat.phase, "running")

    def test_a_refused_word_is_told_and_may_be_tried_again(self) -> None:
        refuse = Seat._refuse_rest
        for pause, is_asked in ((0.0, True), (0.2, False)):  # as soon as its end is told
            self.server.refusals["hello"] = "refused wrongword"
            with mock.patch.object(Seat, "_refuse_rest",
                                   lambda seat: (time.sleep(pause), refuse(seat))):
                self.seat.begin()
                self.assertEqual(self.reach("failed")["fault"], "red: refused wrongword")
                if is_asked:
                    self.assertFalse(self.bid(0, (1, 400)).is_done)
                self.begin()
            self.end()
            self.server.closed = []

    def test_the_game_ends_with_quit(self) -> None:
        self.begin()
        self.bid(20, (-1, 70))
        self.server.units[20], self.server.standing[20], self.server.cash = -1, "()", 70
        self.end()
        state = self.seat.state()
        self.assertEqual((state["phase"], state["cash"], state["goods"][20][0]), ("over", 70, -1))
        self.assertEqual(self.server.heard[-1], "quit")
        self.assertFalse(self.bid(20, (1, 70)).is_done)

    def test_an_order_that_comes_at_the_end_is_answered(self) -> None:
        self.begin()
        self.server.refusals["own 8"] = ""
        answers: "List[Future[Answer]]" = [self.seat.order(Request("bid", 20, ((1, 70),)))
                                           for _ in range(4)]
        self.end()
        answers.append(self.seat.order(Request("bid", 20, ((1, 70),))))
        self.assertEqual(len([answer.result(MOST) for answer in answers]), 5)

    def test_whatever_ends_the_link_is_told(self) -> None:
        for host in ("a..b", "x" * 70):  # names that the system cannot look up at all
            self.seat = Seat(greeting(host, 7000, "red", "words", lambda: True), PACE)
            self.seat.begin()
            self.assertRegex(self.reach("failed")["fault"], "^Unicode\\w*Error: .")

    def test_a_lost_link_is_left_while_no_browser_has_the_page_open(self) -> None:
        is_open = threading.Event()
        self.seat = Seat(greeting("127.0.0.1", self.server.port, "red", "words", is_open.is_set),
                         PACE)
        self.server.refusals["hello"] = ""  # the host ends its link before the game
        self.seat.begin()
        self.assertEqual(self.reach("failed")["fault"],
                         "red: it was lost while no browser had this page open")
        self.assertEqual(self.server.heard, ["hello red"])
        is_open.set()
        self.server.refusals["hello"] = ""
        self.begin()  # and one that is open is connected again
        self.assertEqual(self.server.heard[:3], ["hello red"] * 3)
        is_open.clear()
        self.server.refusals["quote 5"] = ""
        self.reach("failed")
