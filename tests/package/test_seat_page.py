import asyncio
import http.client
import json
import re
import threading
import unittest
from concurrent.futures import ThreadPoolExecutor
from typing import Any, Dict, List, Optional, Tuple
from unittest import mock

from geesefuton.network.addresses import listen
from geesefuton.network.gate import Gate
from geesefuton.network.pages import Faults, PageServer, Request, page_gate
from geesefuton.playing.seat_page import NOT_YET, Host, Pages, Site, Table
from geesefuton.playing.trip_board import HELD, TripBoard
from tests.package import cases
from tests.package.cases import MOST
from tests.package.test_seat import Case

TOKEN = "abcdefgh23"


class OpenPages(cases.Case):
    def setUp(self) -> None:
        self.patch("playing.seat_page.time.monotonic", lambda: self.time)
        self.time, self.pages = 100.0, Pages()

    def plays(self, *pages: str) -> List[bool]:
        return [self.pages.plays(page) for page in pages]

    def test_the_first_page_plays_and_a_later_one_may_take_over(self) -> None:
        first, later = self.pages.open(""), self.pages.open("")
        self.assertEqual(self.plays(first, later), [True, False])
        self.pages.take(later)
        self.assertEqual(self.plays(first, later), [False, True])
        again = self.pages.open(later)  # one that is reloaded goes on playing
        self.assertEqual([*self.plays(again), self.pages.hear(later)], [True, False])

    def test_a_page_that_is_gone_gives_way_and_is_no_longer_open(self) -> None:
        self.pages.open("")
        for seconds, due in ((8.9, False), (0.2, True)):
            self.time += seconds
            self.assertEqual(self.plays(self.pages.open("")), [due])
        self.pages = Pages()
        self.assertFalse(self.pages.is_open())
        self.pages.open("")
        self.time += 5
        later = self.pages.open("")
        self.time += 8
        self.assertTrue(self.pages.is_open())
        self.pages.hear(later)
        self.time += 9.1
        self.assertFalse(self.pages.is_open())

    def test_the_pages_that_are_known_are_few(self) -> None:
        first, eldest = self.pages.open(""), self.pages.open("")
        for _ in range(60):
            self.time += 1
            self.pages.hear(first)
            self.pages.open("")
        self.assertTrue(self.pages.plays(first))
        self.assertTrue(self.pages.hear(first))
        self.assertFalse(self.pages.hear(eldest))


class Served(Case):
    """The page of a seat, asked as a browser does."""

    def setUp(self) -> None:
        super().setUp()
        ready = threading.Event()

        async def serve() -> None:
            self.loop, self.ended = asyncio.get_running_loop(), asyncio.Event()
            host = Host("127.0.0.1", self.server.port, 60000, names={"red7k": "red"})
            self.table = Table(self.seat, Pages(), TripBoard(True), TOKEN, "red7k", host)
            site = Site(host)
            site.tables.append(self.table)
            server = PageServer(site.answer, page_gate(), Faults(self.fail))
            with listen(0) as listener:
                self.port = listener.getsockname()[1]
                serving = asyncio.ensure_future(server.serve(listener))
                ready.set()
                await self.ended.wait()
                serving.cancel()
                await asyncio.wait([serving])

        thread = threading.Thread(target=lambda: asyncio.run(serve()), daemon=True)
        thread.start()
        self.addCleanup(thread.join)
        ready.wait(MOST)
        self.addCleanup(lambda: self.loop.call_soon_threadsafe(self.ended.set))

    def fetch(self, method: str, path: str, body: Any = None,
              kind: str = "application/json") -> Tuple[int, str]:
        """The status and the text of an answer, or whither it leads."""
        link = http.client.HTTPConnection("127.0.0.1", self.port, timeout=MOST)
        try:
            text = body if isinstance(body, (bytes, type(None))) else json.dumps(body).encode()
            link.request(method, path, text, {"Content-Type": kind})
            answer = link.getresponse()
            return answer.status, answer.getheader("Location", "") + answer.read().decode()
        finally:
            link.close()

    def ask(self, what: str, token: Optional[str] = None, **given: Any) -> Tuple[int, Any]:
        status, text = self.fetch("POST", f"/{token or TOKEN}/{what}", given)
        return status, json.loads(text)

    def open(self) -> str:
        page: str = self.ask("open")[1]["page"]
        self.reach("running")
        return page

    def bids(self, page: str) -> Tuple[int, Any]:
        return self.ask("bid", page=page, good=9, points=[[1, 70]])

    def state(self, page: str) -> Dict[str, Any]:
        state: Dict[str, Any] = self.ask("state", page=page, after=-1)[1]
        return state

    def test_the_page_is_at_its_address_alone(self) -> None:
        status, text = self.fetch("GET", f"/{TOKEN}/")
        self.assertEqual(status, 200)
        self.assertEqual(re.findall(r"(?:src|href)=\"(?!data:)|https?://(?!www.w3.org)", text), [])
        for path, due in ((f"/{TOKEN}", 308), ("/", 404), ("/wrong/", 403), (f"/{TOKEN}x/", 403),
                          ("/%c3%a9/", 403), (f"/{TOKEN}/more", 404)):
            self.assertEqual(self.fetch("GET", path)[0], due, path)
        self.assertEqual(self.fetch("GET", f"/{TOKEN}")[1], f"/{TOKEN}/")
        self.assertEqual(self.server.heard, [])

    def test_a_page_that_is_opened_takes_the_seat_and_bids(self) -> None:
        page = self.open()
        state = self.state(page)
        self.assertEqual((state["plays"], state["again"], len(state["clients"])), (True, True, 8))
        status, answer = self.ask("bid", page=page, good=9, points=[[2, 70]])
        self.assertEqual((status, answer["done"]), (200, True))
        self.assertIn("bid 9 ((2 70))", self.server.heard)
        self.server.refusals["bid 9"] = "@4 no belowquote 3 101 2"
        answer = self.ask("bid", page=page, good=9, points=[[2, 80]])[1]
        self.assertEqual((answer["done"], answer["fix"]), (False, [3, 101]))
        self.assertTrue(self.ask("withdraw", page=page, good=20)[1]["done"])

    def test_a_forged_token_and_a_stale_page_ask_nothing(self) -> None:
        page = self.open()
        rows = [("bid", "guessed", page, 403), ("state", "guessed", page, 403),
                ("bid", None, "", 409), ("bid", None, "0123456789abcdef", 409),
                ("state", None, "stale", 409), ("nothing", None, page, 404)]
        for what, token, number, due in rows:
            status, answer = self.ask(what, token, page=number, good=9, points=[[1, 70]])
            self.assertEqual((status, answer["done"]), (due, False))
            self.assertEqual(len(answer["text"].splitlines()), 1)
        self.assertFalse(any("bid" in line for line in self.server.heard))

    def test_two_browsers_at_a_seat(self) -> None:
        first, later = self.open(), self.open()
        self.assertEqual([self.state(page)["plays"] for page in (first, later)], [True, False])
        status, answer = self.bids(later)
        self.assertEqual((status, answer["text"]),
                         (409, "Another browser plays this seat: take it over first."))
        self.ask("take", page=later)
        self.assertEqual([self.state(page)["plays"] for page in (first, later)], [False, True])
        self.assertEqual(self.bids(first)[0], 409)
        self.assertTrue(self.bids(later)[1]["done"])

    def test_an_answer_after_its_browser_was_told_to_wait_is_listed(self) -> None:
        page, answer, may_answer = self.open(), self.server.answer, threading.Event()
        self.addCleanup(may_answer.set)

        def late(line: str) -> str:
            if line.startswith("bid"):
                may_answer.wait(MOST)
            return answer(line)

        self.enter(mock.patch.object(self.server, "answer", late))
        with mock.patch("geesefuton.playing.seat_page.LATE", 0.01):
            self.assertEqual(self.bids(page)[1]["text"], NOT_YET.text)
        may_answer.set()
        self.assertTrue(self.bids(page)[1]["done"])
        self.assertEqual(len(self.state(page)["calls"]), 2)

    def test_requests_that_are_none(self) -> None:
        page, path = self.open(), f"/{TOKEN}/bid"
        for given in ({"good": 28}, {"good": True}, {"good": "9"}, {"good": 9, "points": [[1]]},
                      {"good": 9, "points": [[1.5, 70]]}, {"good": 9, "points": ["1"]}):
            status, answer = self.ask("bid", page=page, **given)
            self.assertEqual((status, answer["done"]), (400, False), given)
        self.assertIn("at least 1 unit", self.ask("bid", page=page, good=9, points=[])[1]["text"])
        for body, kind, due in ((b"[]", "", 400), (b"{", "", 400), (b"[" * 4000, "", 400),
                                (b"{}", "; charset=utf-8", 409)):
            self.assertEqual(self.fetch("POST", path, body, "application/json" + kind)[0], due)
        self.assertEqual(self.fetch("POST", path, b"{}", "text/plain")[0], 415)

    def test_news_is_waited_for_by_the_version_that_the_page_has(self) -> None:
        page = self.open()
        with mock.patch("geesefuton.playing.seat_page.WAIT", MOST):
            version = -1
            for given in (None, "7", 7.5):  # none of these is a version
                version = self.ask("state", page=page, after=given)[1]["version"]
            self.assertGreater(self.ask("state", page=page, after=version)[1]["version"], version)
        self.end()
        version = self.state(page)["version"]
        with mock.patch("geesefuton.playing.seat_page.WAIT", 0.01):  # and not longer than so
            self.assertEqual(self.ask("state", page=page, after=version)[1]["version"], version)

    def test_a_state_has_the_board_of_trips_and_the_name(self) -> None:
        page = self.open()
        state = self.state(page)
        self.assertEqual((len(state["board"]["trips"]), state["me"], state["name"]),
                         (8, 3, "red"))
        self.server.units[0] = 2
        self.ask("bid", page=page, good=0, points=[[2, 300]])
        self.assertEqual([part for trip in self.state(page)["board"]["trips"]
                          for part in trip["parts"] if part[0] == 0],
                         [[0, HELD, None]] * 2)
        with ThreadPoolExecutor(8) as pool:  # and another page is shown the same one
            boards = list(pool.map(lambda page: self.state(page)["board"], (page, self.open()) * 4))
        self.assertEqual(boards, [boards[0]] * 8)

    def test_after_the_game_the_result_is_told_once_the_host_knows_it(self) -> None:
        page = self.open()
        self.table._host.has_results = True
        self.end()
        self.assertEqual((self.state(page)["phase"], self.state(page)["results"]), ("over", []))
        self.assertFalse(self.table.is_told)
        self.table.end([(f"agent {agent}", 100 * agent) for agent in range(8)])
        self.assertEqual(self.state(page)["results"][3], ["agent 3", 300])
        self.assertTrue(self.table.is_told)
        page = self.ask("open", page=page)[1]["page"]
        self.assertEqual(self.seat.phase, "over")
        self.assertFalse(self.bids(page)[1]["done"])

    def test_a_page_alone_knows_its_own_score_and_the_next_game_has_no_result_yet(self) -> None:
        page = self.open()
        self.server.cash = -7
        self.end()
        state = self.state(page)
        self.assertEqual((state["results"], state["board"]["worth"]), ([], -7))
        self.assertTrue(self.table.is_told)
        self.table.end([("agent 0", 1)] * 8)
        self.server.closed = []
        self.ask("again", page=page)
        self.reach("running")
        self.assertEqual(self.state(page)["results"], [])


class Sites(unittest.TestCase):
    def setUp(self) -> None:
        self.site = Site(Host("localhost", 7000, 500, "json",
                              names={"red7k": "red", "blue4": "blue"}))
        visit = Gate(lambda: 0.0, 9, 9, 0, 1.0).arrive("10.0.0.7")
        assert visit is not None
        self.visit = visit

    def join(self, word: str) -> Tuple[str, str]:
        """The status and the text of the answer to somebody who has a word."""
        answer = asyncio.run(self.site.join(
            Request("POST", "/play", {}, word.encode(), self.visit)))
        return answer.status[:3], answer.body.decode()

    def test_each_seat_has_a_table_at_its_token(self) -> None:
        site = Site(self.site.host, [("red7k", "a"), ("blue4", "b")])
        self.assertEqual([(table.token, table.name) for table in site.tables],
                         [("a", "red"), ("b", "blue")])
        with mock.patch("geesefuton.playing.seat.Link.greet") as greet:
            site.tables[1].seat._greet()
        greet.assert_called_once_with("localhost", 7000, "blue4", "json")
        self.assertEqual(site.tables[1].seat._pace, 0.5)

    def test_who_has_the_word_of_a_seat_is_told_where_its_page_is(self) -> None:
        self.site.add("red7k", "a")
        self.assertEqual(self.join("red7k"), ("200", "a"))
        made = self.join("blue4")
        self.assertEqual(made, ("200", self.site.tables[1].token))
        self.assertEqual((len(made[1]), self.site.tables[1].name), (10, "blue"))
        self.assertEqual(self.join("blue4"), made)
        self.assertEqual(len(self.site.tables), 2)

    def test_wrong_words_and_too_many_make_no_table_and_put_off_the_next_ones(self) -> None:
        for word in ("", "red", "red7kk", "RED7K", "\u2713"):
            self.assertEqual(self.join(word)[0], "403")
        self.assertGreater(self.visit._gate.lines.put_off(self.visit.network, 0.0), 10.0)
        with mock.patch.object(self.visit, "whole", return_value=None):
            self.assertEqual(self.join("red7k")[0], "429")
        self.assertEqual(self.site.tables, [])
