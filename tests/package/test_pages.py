"""The server of pages: whom it serves, for how long, and how it ends; and what the screens of a
game's page are sent."""

import asyncio
import contextlib
import functools
import re
import resource
import socket
import threading
from typing import Any, AsyncGenerator, Awaitable, Callable, Dict, List, Tuple
from unittest import mock

from geesefuton.hosting.handouts import Handouts
from geesefuton.hosting.viewers import Viewers
from geesefuton.network.gate import Gate
from geesefuton.network.pages import (FIRST, MOST_BODY, MOST_EACH, MOST_LINKS, SELDOM, Bell, Faults,
                                      PageServer, Request, Response, page_gate, read_page)
from tests.package import cases
from tests.package.cases import MOST

Answer = Tuple[str, Dict[str, str], bytes]
Link = Tuple[asyncio.StreamReader, asyncio.StreamWriter]
OK = "HTTP/1.1 200 OK"
GET = b"GET %s HTTP/1.1\r\nHost: x\r\n\r\n"


class Case(cases.Case):
    """A server on loopback, and browsers of many addresses.

    Attributes:
        told: What the host is told.
    """

    def setUp(self) -> None:
        self.told: List[str] = []
        self.opened: List[asyncio.StreamWriter] = []
        self.asked: List[Request] = []
        self.beat = 1.0  # seconds between pieces
        for name in ("FIRST", "PATIENCE"):  # a busy machine is no reason to let a link go
            self.set(name, MOST)

    def set(self, name: str, value: float) -> None:
        self.patch(f"network.pages.{name}", value)

    async def answer(self, request: Request) -> Response:
        """Answers by the path: `/known` shows a token, and `/events` goes on."""
        self.asked.append(request)
        if request.path.startswith("/known"):
            request.visit.know(request.path)
        if request.path == "/fails":
            raise KeyError("no such thing")
        if request.path == "/events":
            return Response("200 OK", "text/event-stream", pieces=self.pieces())
        return Response("200 OK", "text/plain", b"the page", "X-More: 1\r\n")

    async def pieces(self) -> AsyncGenerator[bytes, None]:
        while True:
            yield b"piece\n"
            await asyncio.sleep(self.beat)

    def run_it(self, work: Any) -> Any:
        """What some work gives that is given the server's port."""
        async def served() -> Any:
            asyncio.get_running_loop().set_exception_handler(
                lambda _, fault: self.told.append(fault["message"]))
            server = PageServer(self.answer, page_gate(), Faults(self.told.append))
            with socket.create_server(("", 0), backlog=128) as listener:
                self.serving = asyncio.ensure_future(server.serve(listener))
                try:
                    return await work(listener.getsockname()[1])
                finally:
                    for writer in self.opened:
                        writer.transport.abort()
                    self.serving.cancel()
                    await asyncio.wait([self.serving])

        return asyncio.run(asyncio.wait_for(served(), MOST))

    async def open(self, port: int, address: str = "127.0.0.1") -> Link:
        reader, writer = await asyncio.open_connection("127.0.0.1", port, local_addr=(address, 0))
        self.opened.append(writer)
        return reader, writer

    async def ask(self, port: int, request: bytes, address: str = "127.0.0.1") -> Answer:
        """What a link is answered until it ends."""
        reader, writer = await self.open(port, address)
        writer.write(request)
        return answer_of(await reader.read())

    async def known(self, port: int, path: bytes = b"/known", address: str = "127.0.0.1") -> Link:
        link = await self.open(port, address)
        await asks(link, path)
        return link

    async def hold(self, port: int, count: int, request: bytes, address: str) -> List[Link]:
        """Links that begin something that does not end."""
        links = [await self.open(port, address) for _ in range(count)]
        for reader, writer in links:
            writer.write(request)
            if b"events" in request:
                await reader.readuntil(b"piece\n")
        return links


def served(work: Callable[[Any, int], Awaitable[None]]) -> Callable[[Any], None]:
    """A test of what some work does that is given the server's port."""
    @functools.wraps(work)
    def test(case: Case) -> None:
        case.run_it(functools.partial(work, case))

    return test


async def asks(link: Link, path: bytes = b"/known", more: bytes = b"") -> None:
    """A link asks once more, and is answered."""
    link[1].write(b"GET " + path + b" HTTP/1.1\r\n" + more + b"\r\n")
    await link[0].readuntil(b"the page")


def answer_of(data: bytes) -> Answer:
    """The status, the head and the body of an answer."""
    head, _, body = data.partition(b"\r\n\r\n")
    status, *lines = head.decode().split("\r\n")
    return status, dict(line.split(": ", 1) for line in lines), body


class Answering(Case):
    """What one browser gets, also one that takes its time."""

    def get(self, request: bytes) -> Answer:
        answer: Answer = self.run_it(lambda port: self.ask(port, request))
        return answer

    def test_an_answer_has_its_head(self) -> None:
        status, heads, body = self.get(b"GET /a/b?c=d HTTP/1.1\r\nhOST:x \r\n\r\n")
        self.assertEqual((status, heads["Content-Type"], heads["Content-Length"], heads["X-More"],
                          heads["Connection"], body),
                         (OK, "text/plain", "8", "1", "close", b"the page"))
        self.assertIn("default-src 'none'", heads["Content-Security-Policy"])
        asked, = self.asked
        self.assertEqual(asked[:4], ("GET", "/a/b", {"host": "x"}, b""))
        for line in (b"GET\r\n\r\n", b"\r\n\r\n"):
            self.assertEqual(self.get(line)[0], OK)

    def test_a_body_is_short_and_has_a_length(self) -> None:
        post = b"POST / HTTP/1.1\r\nContent-Length: %s\r\n\r\n"
        self.assertEqual(self.get(post % b"5" + b"hello")[0], OK)
        self.assertEqual(self.asked[-1].body, b"hello")
        for length in (b"-1", b"x", b"\xb2", b"%d" % (MOST_BODY + 1), b"9" * 5000):
            self.assertEqual(self.get(post % length), ("", {}, b""), length)
        self.assertEqual(self.told, [])

    def test_a_head_of_many_cookies_is_answered_and_one_of_thousands_of_lines_is_not(self) -> None:
        for lines, is_answered in ((b"Cookie: a=" + b"x" * (9 << 10) + b"\r\n", True),
                                   (b"Cookie: a=" + b"x" * (60 << 10) + b"\r\n", True),
                                   (b"Cookie: a=" + b"x" * (300 << 10) + b"\r\n", False),
                                   (b"a:\r\n" * 97, True), (b"a:\r\n" * 16000, False)):
            with contextlib.suppress(ConnectionError):
                self.assertEqual(self.get(b"GET / HTTP/1.1\r\n" + lines + b"\r\n")[0],
                                 OK * is_answered)

    @served
    async def test_a_link_with_a_token_is_kept(self, port: int) -> None:
        link = await self.known(port)
        for more in (b"", b"Connection: close\r\n"):
            await asks(link, more=more)
        self.assertEqual(await link[0].read(), b"")
        self.assertEqual(len(self.asked), 3)

    @served
    async def test_one_that_fails_is_told_of_and_no_other_is_hurt(self, port: int) -> None:
        self.assertEqual([(await self.ask(port, GET % path))[0] for path in (b"/fails", b"/")],
                         ["", OK])
        self.assertEqual(self.told, ["a page failed: KeyError('no such thing')"])

    async def trickle(self, port: int, first: bytes) -> bytes:
        """What a link is answered that sends a letter more and more."""
        reader, writer = await self.open(port)
        writer.write(first)
        reading = asyncio.ensure_future(reader.read())
        while not reading.done():
            writer.write(b"a")
            await asyncio.sleep(0.01)
        return await reading

    def test_a_head_a_body_and_the_next_head_of_a_kept_link_have_a_time_for_all_of_it(self) -> None:
        self.assertLessEqual(FIRST, 5.0)
        for name, first, due in (
                ("FIRST", b"", 0), ("FIRST", b"GET / HTTP/1.1\r\nA: ", 0),
                ("PATIENCE", b"POST / HTTP/1.1\r\nContent-Length: 4000\r\n\r\n", 0),
                ("PATIENCE", b"GET /known HTTP/1.1\r\n\r\nGET", 1)):
            self.asked.clear()
            with mock.patch(f"geesefuton.network.pages.{name}", 0.2), \
                    contextlib.suppress(ConnectionError):
                got = self.run_it(lambda port, it=first: self.trickle(port, it))
                self.assertEqual(got.count(b"the page"), due)
            self.assertEqual(len(self.asked), due)

    def taken(self, size: int, first: float, then: float) -> int:
        """How much a browser gets of an answer of some bytes that pauses after the first of them,
        and then after each piece."""
        async def work(port: int) -> int:
            reader, writer = await self.open(port)
            writer.write(GET % b"/")
            await reader.readuntil(b"\r\n\r\n")
            await asyncio.sleep(first)
            got = 0
            with contextlib.suppress(ConnectionError):
                while piece := await reader.read(1 << 20):
                    got += len(piece)
                    await asyncio.sleep(then)
            return got

        with mock.patch.object(self, "answer", mock.AsyncMock(
                return_value=Response("200 OK", "text/plain", b"x" * size))):
            got: int = self.run_it(work)
            return got

    def test_one_that_takes_nothing_is_let_go_and_one_that_is_slow_gets_all(self) -> None:
        self.assertEqual(self.taken(8 << 20, 0.0, 0.01), 8 << 20)
        self.set("PATIENCE", 0.1)
        self.assertLess(self.taken(32 << 20, 0.3, 0.0), 32 << 20)


class Crowds(Case):
    """Who is served if there are many links."""

    async def check(self, port: int, *addresses: str) -> None:
        for address in addresses:
            self.assertEqual((await self.ask(port, GET % b"/", address))[0], OK)

    @served
    async def test_links_that_go_on_from_four_addresses_do_not_keep_a_fifth_out(
            self, port: int) -> None:
        for number in range(4):
            await self.hold(port, 50, GET % b"/events", f"127.0.0.{number + 2}")
        fifth, = await self.hold(port, 1, GET % b"/events", "127.0.1.1")
        for number in range(4):  # and those that return do not end it
            await self.hold(port, 5, GET % b"/events", f"127.0.0.{number + 2}")
        await fifth[0].readuntil(b"piece\n")
        await self.check(port, "127.0.1.2", "127.0.0.2")
        self.assertEqual((MOST_LINKS, MOST_EACH, self.told), (200, 50, []))

    @served
    async def test_heads_that_trickle_do_not_keep_a_player_out(self, port: int) -> None:
        for number in range(6):
            await self.hold(port, 50, b"GET / HTTP/1.1\r\nA: ", f"127.0.0.{number + 2}")
        await self.known(port, address="127.0.0.2")
        await self.check(port, "127.0.0.2", "127.0.1.1")

    @served
    async def test_players_behind_one_address_are_all_served(self, port: int) -> None:
        links = [await self.known(port, b"/known%d" % (number % 8))
                 for number in range(8 * 10)]  # more than strangers of one address may have
        for link in links:  # and each of them goes on
            await asks(link)
        self.assertGreater(len(links), MOST_EACH)

    @served
    async def test_one_that_asks_much_at_once_keeps_no_other_waiting(self, port: int) -> None:
        busy, other = await self.known(port), await self.known(port)
        busy[1].write(GET % b"/known" * 500)
        await asks(other, b"/other")
        self.assertLess([asked.path for asked in self.asked].index("/other"), 50)

    def test_links_that_come_at_once_need_few_files(self) -> None:
        async def work(port: int) -> None:
            for _ in range(100):  # before any of them is taken
                link = self.enter(socket.create_connection(("127.0.0.1", port)))
            resource.setrlimit(resource.RLIMIT_NOFILE, (link.fileno() + 60, most[1]))
            await self.check(port, "127.0.0.1")

        self.set("MOST_LINKS", 20)
        most = resource.getrlimit(resource.RLIMIT_NOFILE)
        self.addCleanup(resource.setrlimit, resource.RLIMIT_NOFILE, most)
        self.run_it(work)
        self.assertEqual(self.told, [])

    @served
    async def test_a_system_without_open_files_is_told_once_and_asked_again(
            self, port: int) -> None:
        faults = [OSError(24, "Too many open files")] * 3
        accept = socket.socket.accept

        def refused(listener: socket.socket) -> Any:
            if faults:
                raise faults.pop()
            return accept(listener)

        self.set("AGAIN", 0.01)
        with mock.patch.object(socket.socket, "accept", refused):
            await self.check(port, "127.0.0.1")
        self.assertEqual(self.told, ["cannot accept a browser: Too many open files"])

    # How a server ends.

    @served
    async def test_a_server_that_is_stopped_as_a_link_comes_ends_without_a_fault(
            self, port: int) -> None:
        await asyncio.sleep(0)  # it waits for links
        with socket.create_connection(("127.0.0.1", port)):
            await asyncio.sleep(0)  # and is about to take this one
            self.serving.cancel()
            await asyncio.wait([self.serving])
        self.assertEqual(self.told, [])

    def test_a_server_with_links_ends_at_any_moment(self) -> None:
        async def work(port: int, pause: float) -> None:
            await self.hold(port, 40, GET % b"/events", "127.0.0.1")
            await asyncio.sleep(pause)

        self.beat = 0.01
        for pause in (0.01, 0.013, 0.016, 0.019):
            page = threading.Thread(target=self.run_it, daemon=True,
                                    args=(lambda port, pause=pause: work(port, pause),))
            page.start()
            page.join(MOST)
            self.assertFalse(page.is_alive(), "it goes on, although it was stopped")


class Parts(cases.FolderCase):
    def test_a_bell_is_rung_in_any_thread(self) -> None:
        async def work() -> int:
            bell, number = Bell(), 0
            bell.ring()  # nobody waits

            def ring() -> None:
                nonlocal number
                for _ in range(3):
                    number += 1
                    bell.ring()

            waiting = [asyncio.ensure_future(bell.wait_until(lambda: number >= 3, MOST))
                       for _ in range(3)]
            await asyncio.to_thread(ring)
            await asyncio.gather(*waiting)
            await bell.wait_until(lambda: False, 0.01)
            return number

        self.assertEqual(asyncio.run(asyncio.wait_for(work(), MOST)), 3)

    def test_a_fault_that_lasts_is_told_once_in_a_while(self) -> None:
        told: List[str] = []
        faults = Faults(told.append)
        with mock.patch("time.monotonic", return_value=5.0) as clock:
            for number in range(100):
                faults.tell(f"tick {number}", "no disk")
            faults.tell("tick 100", "no file")
            clock.return_value += SELDOM
            faults.tell("tick 101", "no disk")
        self.assertEqual(told, ["tick 0: no disk", "tick 100: no file", "tick 101: no disk"])

    def test_a_page_has_what_all_share_in_it(self) -> None:
        file = self.folder / "a.html"
        file.write_text("<title>A</title>")
        text = read_page(file).decode()
        self.assertRegex(text, r"(?s)^<!doctype html>\n.*<style>\n:root \{.*\}\n</style>\n"
                               r"<script>\n\"use strict\";\n.*;\n</script>\n<title>A</title>$")


class ViewersAnswers(cases.Case):
    def setUp(self) -> None:
        self.viewers = Viewers(b"the page")

    def get(self, path: str, method: str = "GET", **fields: str) -> Tuple[str, str, bytes]:
        visit = Gate(lambda: 0.0, 1, 1, 0, 1.0).arrive("127.0.0.1")
        assert visit is not None
        request = Request(method, path, fields, b"", visit)
        answer = asyncio.run(self.viewers.answer(request))
        return answer.status, answer.kind, answer.body

    def test_the_page_and_the_newest_state(self) -> None:
        self.assertEqual(self.get("/"), ("200 OK", "text/html; charset=utf-8", b"the page"))
        for state in (b'{"a":1}', b'{"a":22}'):
            asyncio.run(self.viewers.show(state, False))
            self.assertEqual(self.get("/state"), ("200 OK", "application/json", state))

    def test_nothing_else_is_there(self) -> None:
        for path, method in (("/live.py", "GET"), ("/", "POST"), ("/state", "PUT"), ("", "GET"),
                             ("/events", "POST"), ("/state/", "GET"), ("/join", "GET")):
            self.assertEqual(self.get(path, method)[0], "404 Not Found", (path, method))

    def test_what_is_handed_out_has_the_name_that_the_viewer_calls_the_host_by(self) -> None:
        self.viewers.handouts = Handouts(7000)
        rows: List[Tuple[Dict[str, str], str]] = [({"host": "10.0.0.7:80"}, "10.0.0.7"),
                                                  ({"accept": "x"}, "localhost")]
        for fields, name in rows:
            status, kind, body = self.get("/starter.py", **fields)
            self.assertEqual((status, kind), ("200 OK", "text/plain; charset=utf-8"))
            self.assertIn(f'HOST = "{name}"', body.decode())
        self.assertEqual([self.get(path)[0] for path in ("/join", "/starters", "/live.py")],
                         ["200 OK", *["404 Not Found"] * 2])


class Screens(Case):
    """The states of a game, as a screen gets them."""

    def setUp(self) -> None:
        super().setUp()
        self.viewers = Viewers(b"the page")
        self.enter(mock.patch.object(self, "answer", self.viewers.answer))

    async def follow(self, port: int) -> Any:
        """A screen that has been sent nothing yet."""
        reader, writer = await self.open(port)
        writer.write(GET % b"/events")
        await reader.readuntil(b"retry: 1000\n\n")
        return reader

    @served
    async def test_each_state_is_sent_until_the_last(self, port: int) -> None:
        self.patch("hosting.viewers.BEAT", MOST)  # a state does not wait for it
        reader, last = await self.follow(port), b"event: end\ndata: over\n\n"
        for number in range(3):
            await self.viewers.show(b'{"a":%d}' % number, number == 2)
            self.assertEqual(await reader.readuntil(b"\n\n"), b'data: {"a":%d}\n\n' % number)
        self.assertEqual(await reader.read(), last)
        self.assertEqual(await (await self.follow(port)).read(), b'data: {"a":2}\n\n' + last)
        self.assertEqual(self.viewers.count, 0)

    @served
    async def test_one_that_reads_slowly_misses_states_and_gets_the_newest(
            self, port: int) -> None:
        reader = await self.follow(port)
        for number in range(50):
            await self.viewers.show(b"%d " % number + b"x" * (1 << 20), number == 49)
            await asyncio.sleep(0.001)
        numbers = list(map(int, re.findall(rb"data: (\d+) x", await reader.read())))
        self.assertEqual((numbers, numbers[-1]), (sorted(set(numbers)), 49))
        self.assertLess(len(numbers), 25)

    @served
    async def test_one_that_reads_no_more_states_is_let_go(self, port: int) -> None:
        self.set("PATIENCE", 0.1)
        await self.follow(port)
        while self.viewers.count:
            await self.viewers.show(b"x" * (1 << 20), False)
            await asyncio.sleep(0.01)

    @served
    async def test_a_screen_hears_that_the_page_goes_on(self, port: int) -> None:
        self.patch("hosting.viewers.BEAT", 0.05)
        reader = await self.follow(port)
        await self.viewers.show(b"{}", False)
        self.assertEqual([await reader.readuntil(b"\n\n") for _ in range(3)],
                         [b"data: {}\n\n", *[b"event: here\ndata: still\n\n"] * 2])
