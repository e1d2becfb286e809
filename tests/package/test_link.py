"""The link of an agent, its command line, and what agents keep of their links, in Python and in
JavaScript."""

import ast
import contextlib
import errno
import io
import os
import random
import shutil
import socket
import sys
import threading
import time
import types
import unittest
from typing import Callable, Dict, Iterator, List, NamedTuple, Optional, Sequence, Set, Tuple, Union
from unittest import mock

from geesefuton import link
from geesefuton.link import Link, LinkError, Unanswered
from geesefuton.processes import free_port
from geesefuton.records.games import Client
from geesefuton.records.replies import No, Own, Quote, Request, Taken
from tests.package.cases import Case
from tests.package.helpers import TOP, completed
from tests.package.seat_server import WELCOME as WELCOME

SAID = "".join(f"{line}\n" for line in WELCOME)


class Late(NamedTuple):
    """An answer that comes after so many seconds."""

    seconds: float
    lines: Sequence[str]


Answers = Sequence[Union[None, Sequence[str], Late]]  # of a link
Linked = Tuple[Link, "Server"]


class Server:
    """A server of some links, one after the other: it answers each line of a link with the next of
    its answers, each some lines, and then closes it. Where an answer is None it says nothing more,
    and waits until the agent closes the link. `heard` has what it was sent."""

    def __init__(self, *links: Answers, port: int = 0) -> None:
        self.heard: List[str] = []
        self._links = links
        self._listener = socket.create_server(("127.0.0.1", port))
        self.port: int = self._listener.getsockname()[1]
        self._thread = threading.Thread(target=self._serve, daemon=True)
        self._thread.start()

    def _serve(self) -> None:
        with self._listener:
            for left, answers in zip(reversed(range(len(self._links))), self._links):
                try:
                    stream, _ = self._listener.accept()
                except OSError:
                    return  # it was ended
                if not left:
                    self._listener.close()
                self._answer(stream, answers)

    def _answer(self, stream: socket.socket, answers: Answers) -> None:
        with stream, stream.makefile("rwb") as lines:
            for answer in answers:
                line = lines.readline()
                if not line:
                    break
                self.heard.append(line.decode())
                if answer is None:
                    lines.read()
                    break
                if isinstance(answer, Late):
                    time.sleep(answer.seconds)
                    answer = answer.lines
                lines.write("".join(f"{text}\n" for text in answer).encode())
                lines.flush()

    def join(self) -> None:
        """Ends it, once it has answered the links that came."""
        with contextlib.suppress(OSError):
            self._listener.shutdown(socket.SHUT_RDWR)
        self._thread.join(5)


@contextlib.contextmanager
def linked(*links: Answers, form: str = "words", limit: Optional[float] = None
           ) -> Iterator[Linked]:
    """A link that has its seat at a server of some links, and the server."""
    server = Server(*links)
    with Link.greet("127.0.0.1", server.port, "red", form, limit) as agent:
        yield agent, server
    server.join()


def seated(*answers: str, form: str = "words") -> "contextlib.AbstractContextManager[Linked]":
    """The same at a server that answers each line with the next of these."""
    return linked([WELCOME, *([answer] for answer in answers)], form=form)


class Greeting(unittest.TestCase):
    def test_a_seat_with_its_tickets_and_clients(self) -> None:
        for form in ("words", "json"):
            with seated(form=form) as (agent, server):
                self.assertEqual((agent.agent, agent.word, agent.endow),
                                 (3, "red", [0, 1, 1, 2, 2, 0, 2, 2, 2, 0, 1, 1]))
                self.assertEqual(agent.clients, [
                    Client(1 + number % 4, 5, 50 + number, (1, 2, number)) for number in range(8)])
                self.assertEqual(server.heard, ["hello red\n"])
                self.assertTrue(agent.stream.getsockopt(socket.IPPROTO_TCP, socket.TCP_NODELAY))

    def test_a_link_that_is_refused_or_closes_is_closed_and_ends_the_agent(self) -> None:
        links: List[Tuple[Answers, str]] = [([], "the link was closed")]
        links += [([WELCOME[:count]], "the link was closed") for count in (1, 5)]
        links += [([[refusal]], refusal) for refusal in ("refused taken", "refused wrongword")]
        for answers, due in links:
            server = Server(answers)
            with mock.patch.object(Link, "close", autospec=True, side_effect=Link.close) as close:
                with self.assertRaises(LinkError) as caught:
                    Link.greet("127.0.0.1", server.port, "red")
            self.assertEqual(str(caught.exception), f"red: {due}")
            self.assertIsInstance(caught.exception, Exception)
            close.assert_called_once()

    def test_no_server(self) -> None:
        for host, port, why in (
                ("127.0.0.1", free_port(), "Connection refused$"), ("nowhere.invalid", 7000, ""),
                *(("127.0.0.1", port, "ports") for port in (70000, 65536, 0, -1))):
            with mock.patch("geesefuton.link.PATIENCE", 0.0), self.assertRaisesRegex(
                    LinkError, f"^cannot connect to {host} at port {port}: {why}"):
                Link.greet(host, port, "red")

    def test_every_port_is_tried_and_between_two_tries_it_waits(self) -> None:
        with mock.patch("socket.create_connection") as connect, mock.patch("time.sleep") as sleep:
            for port in (1, 65535):
                self.assertIs(link._connect("there", port), connect.return_value)
                connect.assert_called_with(("there", port))
            connect.side_effect = [ConnectionRefusedError, ConnectionRefusedError, "it"]
            self.assertEqual(link._connect("there", 7000), "it")
        self.assertEqual(sleep.call_count, 2)

    def test_a_server_that_still_starts_is_waited_for(self) -> None:
        port = free_port()
        timer = threading.Timer(0.3, Server, ([WELCOME],), {"port": port})
        timer.start()
        with Link.greet("127.0.0.1", port, "red") as agent:
            self.assertEqual(agent.agent, 3)
        timer.join(5)


class Calls(unittest.TestCase):
    def test_each_call_sends_its_line_and_gives_the_same_answer_in_both_forms(self) -> None:
        calls: List[Tuple[Callable[[Link], object], object, str, str, str, str]] = [
            (lambda agent: agent.bid(24, (2, 70), (-1, 65)), "@7 taken 1 0",
             "bid 24 ((2 70) (-1 65))", "@7 taken 1 0",
             '{"do":"bid","auction":24,"points":[[2,70],[-1,65]]}', '{"at":7,"taken":[1,0]}'),
            (lambda agent: agent.withdraw(24), "@8 done", "withdraw 24", "@8 done",
             '{"do":"withdraw","auction":24}', '{"at":8,"done":true}'),
            (lambda agent: agent.quote(24), Quote(9, 70, 0, False), "quote 24",
             "@9 quote 70 0 open", '{"do":"quote","auction":24}',
             '{"at":9,"quote":[70,0],"open":true}'),
            (lambda agent: agent.holding(24), Own(10, -2, ((1, 70),)), "own 24",
             "@10 own -2 ((1 70))", '{"do":"own","auction":24}',
             '{"at":10,"own":-2,"points":[[1,70]]}'),
            (lambda agent: agent.own(5), 4, "own 5", "@11 own 4 ()", '{"do":"own","auction":5}',
             '{"at":11,"own":4,"points":[]}'),
            (lambda agent: agent.cash(), -660, "cash", "@31 cash -660", '{"do":"cash"}',
             '{"at":31,"cash":-660}'),
            (lambda agent: agent.quit(), None, "quit", "bye", '{"do":"quit"}', '{"bye":true}')]
        for form, place in (("words", 2), ("json", 4)):
            lines, answers = ([str(call[place + number]) for call in calls] for number in (0, 1))
            with seated(*answers, form=form) as (agent, server):
                for call, due, *_ in calls:
                    self.assertEqual(call(agent), due)
                self.assertEqual(agent.stream.fileno(), -1)
                self.assertTrue(agent.lines.closed)
            self.assertEqual(server.heard[1:], [f"{line}\n" for line in lines])

    def test_lines_that_ask_nothing_are_sent_in_words_alone(self) -> None:
        with seated("no syntax") as (agent, server):
            self.assertEqual(agent.ask("buy 5"), "no syntax")
        self.assertEqual(server.heard[1:], ["buy 5\n"])
        with seated('{"no":"bid","fault":4}', form="json") as (agent, server):
            self.assertEqual([agent.ask(line) for line in ("", "own 05", "quit now", "buy 5")],
                             ["no syntax"] * 4)
            self.assertEqual(agent.ask("bid 5 ((1 0))"), "no bid 4")
        self.assertEqual(server.heard[1:], ['{"do":"bid","auction":5,"points":[[1,0]]}\n'])

    def test_in_json_a_line_for_which_there_was_no_memory_is_sent_again(self) -> None:
        with seated('{"no":"memory"}', '{"no":"memory"}', '{"at":0,"taken":[1,0]}',
                    '{"no":"auction"}', form="json") as (agent, server):
            self.assertEqual(agent.send(Request("bid", 0, ((1, 400),))), Taken(0, 1, 0))
            self.assertEqual((len(server.heard), len(set(server.heard[1:]))), (4, 1))
            self.assertEqual(agent.send(Request("own", 28)), No(None, "auction"))

    def test_a_reading_that_is_refused_ends_the_agent(self) -> None:
        for call, line, told in (("cash", "no spent", "red: cash: no spent"),
                                 ("own", "no spent", "red: own 3: no spent"),
                                 ("quote", "no auction", "red: quote 3: no auction"),
                                 ("own", "hm", "red: 'hm' is not a reply")):
            with seated(line) as (agent, _):
                with self.assertRaises(LinkError) as caught:
                    agent.cash() if call == "cash" else getattr(agent, call)(3)
                self.assertEqual(str(caught.exception), told)

    def test_a_link_that_fails(self) -> None:
        for fault in (ConnectionResetError, TimeoutError(errno.ETIMEDOUT, "timed out")):
            stream = mock.Mock(sendall=mock.Mock(side_effect=fault))
            lines = mock.Mock(readline=mock.Mock(side_effect=fault))
            with self.assertRaisesRegex(LinkError, "red: the link was closed"):
                Link(stream, lines, "red").cash()
            stream.sendall.assert_called_once_with(b"cash\n")

    def test_a_reply_that_breaks_off_is_none(self) -> None:
        ours, theirs = socket.socketpair()
        agent = Link(ours, ours.makefile("rb"), "red")
        with contextlib.closing(agent), theirs:
            theirs.sendall(b"@3 cash 1234")  # its line end is lost
            theirs.shutdown(socket.SHUT_WR)
            self.assertRaisesRegex(LinkError, "red: the link was closed", agent.cash)


class Lost(Case):
    def setUp(self) -> None:
        self.told: List[str] = []
        self.enter(mock.patch.multiple(link, BETWEEN=0.01, tell=self.told.append))

    def test_a_link_that_ends_is_connected_again_and_the_line_asked_again(self) -> None:
        for call, line, answer, due in (
                ("cash", "cash", "@31 cash -660", -660), ("own", "own 8", "@3 own 2 ()", 2),
                ("quote", "quote 8", "@9 quote 0 70 open", Quote(9, 0, 70, False)),
                ("withdraw", "withdraw 8", "@4 no nobid", "@4 no nobid")):
            with self.subTest(call=call), \
                    linked([WELCOME], [WELCOME, [answer]]) as (agent, server):
                words = () if call == "cash" else (8,)
                self.assertEqual(getattr(agent, call)(*words), due)
                self.assertEqual(server.heard, ["hello red\n"] * 2 + [line + "\n"])
                self.assertEqual(len(agent.clients), 8)
        self.assertEqual(len(self.told), 4)
        self.assertRegex(self.told[0], "^red: the link was closed; reconnected after [0-9.]+ s")

    def test_a_reply_has_its_time(self) -> None:
        links = [WELCOME, ["@1 own 1 ()"], None], [WELCOME, ["@2 own 1 ()"]]
        with linked(*links, limit=0.2) as (agent, server):
            self.assertEqual([agent.own(3), agent.own(3)], [1, 1])
        self.assertEqual(server.heard, ["hello red\n", "own 3\n", "own 3\n", "hello red\n",
                                        "own 3\n"])
        self.assertEqual([line.split("; ")[0] for line in self.told],
                         ["red: no reply within 0.2 seconds"])

    def test_the_welcome_may_take_longer_than_a_reply(self) -> None:
        ours, theirs = socket.socketpair()
        with theirs, Link(ours, ours.makefile("rb"), "red", limit=0.05) as agent:
            timer = threading.Timer(0.3, theirs.sendall, [SAID.encode()])
            timer.start()
            with mock.patch.object(link, "prepare"):
                agent._take_welcome(None)
            timer.join()
            self.assertEqual((agent.agent, ours.gettimeout()), (3, 0.05))

    def test_a_lost_bid_is_not_asked_again(self) -> None:
        for form, own in (("words", "@5 own 2 ((1 80))"),
                          ("json", '{"at":5,"own":2,"points":[[1,80]]}')):
            bids: List[Callable[[Link], str]] = [lambda agent: agent.bid(0, (3, 80)),
                                                 lambda agent: agent.ask("bid 0 ((3 80))")]
            for bid in bids:
                with linked([WELCOME, None], [WELCOME, [own]], form=form, limit=0.2) as (agent, _):
                    with self.assertRaisesRegex(Unanswered, "red: the link was lost before `.*bid"):
                        bid(agent)
                    self.assertEqual(agent.holding(0), Own(5, 2, ((1, 80),)))

    def test_a_seat_that_is_taken_for_a_while_is_asked_for_again(self) -> None:
        taken, last = [["refused taken"]], [WELCOME, ["@0 cash 5"]]
        for links in ([[WELCOME], taken, taken, [], [WELCOME[:4]], last],
                      [[WELCOME[:1]], last]):  # it ends before its game
            with linked(*links) as (agent, _):
                self.assertEqual(agent.cash(), 5)
        self.assertEqual(len(self.told), 2)

    def test_one_that_is_back_before_its_game_waits_for_it_as_long_as_it_takes(self) -> None:
        with mock.patch.object(link, "TRY", 0.05), \
                linked([[]], [Late(0.4, WELCOME)]) as (agent, _):
            self.assertEqual(agent.agent, 3)
        self.assertEqual(len(self.told), 1)

    def test_what_cannot_be_mended_is_told(self) -> None:
        refuses, closed = self.assertRaisesRegex, "^red: the link was closed$"
        with linked([WELCOME], [["refused wrongword"]]) as (agent, _):
            refuses(LinkError, "^red: refused wrongword$", agent.cash)
            refuses(LinkError, closed, agent.cash)
        with linked([WELCOME]) as (agent, _):
            refuses(LinkError, closed, agent.cash)
        with linked([WELCOME]) as (agent, _):
            refuses(LinkError, "Connection refused$", agent.rejoin)
        with linked([WELCOME], *([[["refused taken"]]] * 400)) as (agent, _):
            refuses(LinkError, "^red: no link within 0.2 seconds .*taken", agent.rejoin, 0.2)
        with linked([WELCOME], [None], [None], [None]) as (agent, _), \
                mock.patch.object(link, "TRY", 0.1):
            refuses(LinkError, "^red: no link within 0.25 seconds .*no reply", agent.rejoin, 0.25)
        self.assertEqual(self.told, [])

    def test_a_link_that_is_lost_at_quit_is_over(self) -> None:
        with linked([WELCOME], [WELCOME]) as (agent, server):
            self.assertRaisesRegex(LinkError, "the link was closed", agent.quit)
            self.assertEqual(server.heard, ["hello red\n"])
            agent.rejoin()
        self.assertEqual(self.told, [])

    def test_without_an_address_a_link_is_not_connected_again(self) -> None:
        ours, theirs = socket.socketpair()
        with Link(ours, ours.makefile("rb"), "red") as agent:
            theirs.close()
            self.assertRaisesRegex(LinkError, "^red: the link was closed$", agent.cash)
            self.assertRaisesRegex(LinkError, "is not known", agent.rejoin)
        self.assertEqual(ours.fileno(), -1)

    def test_the_limit_is_that_of_the_call_or_of_the_variable(self) -> None:
        for variable, given, due in ((None, None, 10.0), ("3", None, 3.0), ("0", None, None),
                                     (None, 0, None), ("3", 4.5, 4.5)):
            self.set(AGENT_LIMIT=variable or "")
            if variable is None:
                del os.environ["AGENT_LIMIT"]
            with linked([WELCOME], limit=given) as (agent, _):
                self.assertEqual((agent.limit, agent.stream.gettimeout()), (due, due))
        self.set(AGENT_LIMIT="soon")
        self.assertRaisesRegex(LinkError, "AGENT_LIMIT: expected a number of seconds", Link.greet,
                               "127.0.0.1", 7000, "red")


class Running(unittest.TestCase):
    def ran(self, server: Server, play: Callable[[Link, float], None], *more: str) -> object:
        """What an agent ends with, None at its own end; the server is gone then."""
        words = ["mine.py", "127.0.0.1", str(server.port), "red", "--pause", "0.5", *more]
        with mock.patch("sys.argv", words), mock.patch.object(link, "tell"), \
                mock.patch.object(link, "NEXT", 0.01):
            try:
                link.run("what", play)
                return None
            except SystemExit as end:
                return end.code
            finally:
                server.join()

    def test_an_agent_plays_and_quits(self) -> None:
        played: List[Tuple[int, float]] = []
        server = Server([WELCOME, ["bye"]])
        self.assertIsNone(
            self.ran(server, lambda agent, pause: played.append((agent.agent, pause))))
        self.assertEqual((played, server.heard), ([(3, 0.5)], ["hello red\n", "quit\n"]))

    def test_after_a_lost_bid_it_plays_on(self) -> None:
        server = Server([WELCOME], [WELCOME, ["@0 own 0 ()"], ["@1 taken 0 0"], ["bye"]])

        def play(agent: Link, _: float) -> None:
            if "own 8\n" not in server.heard and len(server.heard) > 1:
                agent.own(8)
            agent.bid(8, (1, 50))

        self.assertIsNone(self.ran(server, play))
        self.assertEqual(server.heard[1:], ["hello red\n", "own 8\n", "bid 8 ((1 50))\n", "quit\n"])

    def test_it_asks_again_for_the_next_game_until_its_word_is_refused(self) -> None:
        played: List[int] = []
        server = Server([WELCOME, ["bye"]], [["refused taken"]], [["refused taken"]],
                        [WELCOME, ["bye"]], [["refused wrongword"]])
        end = self.ran(server, lambda agent, _: played.append(agent.agent), "--again")
        self.assertEqual((played, end), ([3, 3], "red: refused wrongword"))
        self.assertEqual(server.heard.count("hello red\n"), 5)

    def test_a_link_that_fails_ends_it_with_a_line(self) -> None:
        refused, told = [["refused wrongword"]], "red: refused wrongword"
        for links, words, due in (([refused], [], told),
                                  ([[WELCOME]], [], "red: the link was closed"),
                                  ([[WELCOME], refused], ["--again"], told)):  # it asks again
            end = self.ran(Server(*links), lambda agent, _: print(agent.cash()), *words)
            self.assertEqual(end, due)


class Solving(Case):
    CLIENTS = [Client(1, 3, 50 + number, (1, 2, 3)) for number in range(8)]

    def test_the_account_of_the_program(self) -> None:
        copy = self.folder / "copy"
        tac = self.use_program(f'cat "$2" > "{copy}"; echo total 1234; echo end')
        self.assertEqual(link.solve(range(28), self.CLIENTS), 1234)
        self.assertEqual(link.program(), tac)
        lines = copy.read_text().splitlines()
        self.assertEqual(lines, ["account", "hold " + " ".join(map(str, range(28))), *(
            f"client {number} 1 3 {50 + number} 1 2 3" for number in range(8)), "end"])

    def test_without_a_program_or_by_a_refusal_nothing_is_known(self) -> None:
        self.use_program("echo text 1 1; exit 8")
        self.assertIsNone(link.solve([0] * 28, self.CLIENTS))
        self.set(TAC="/nowhere/tac")
        self.assertIsNone(link.solve([0] * 28, self.CLIENTS))
        self.assertIsNone(link.program())


class Arguments(Case):
    def arguments(self, *words: str) -> Tuple[str, int, str, float]:
        """What an agent gets of these words behind its host, its port and its word."""
        with mock.patch("sys.argv", ["mine.py", "there", "7000", "red", *words]):
            return link.arguments("what")

    def refused(self, *words: str) -> str:
        """What is told of words that are refused."""
        told = io.StringIO()
        with mock.patch("sys.stderr", told), self.assertRaises(SystemExit) as caught:
            self.arguments(*words)
        self.assertEqual(caught.exception.code, 2)
        return told.getvalue()

    def test_an_agent_gets_host_port_word_and_pause(self) -> None:
        self.assertEqual(self.arguments("--pause", "0.5"), ("there", 7000, "red", 0.5))
        self.assertEqual(self.arguments()[3], 2.0)
        for pause in ("-1", "x", "nan"):
            self.refused("--pause", pause)

    def test_with_a_seed_python_draws_from_it(self) -> None:
        def drawn(seed: str, *words: str) -> float:
            with mock.patch.dict(os.environ, {"AGENT_SEED": seed}):
                if not seed:
                    del os.environ["AGENT_SEED"]
                self.assertEqual(len(self.arguments(*words)), 4)
                return random.random()

        self.addCleanup(random.seed)
        due = random.Random(5).random()
        self.assertEqual([drawn("", "--seed", "5"), drawn("5"), drawn("6", "--seed", "5")],
                         [due] * 3)
        self.assertNotIn(due, [drawn("6"), drawn("")])
        self.assertEqual([drawn("", "--seed", "0"), drawn("0")], [random.Random(0).random()] * 2)
        self.set(AGENT_SEED="x")
        self.refused()

    def test_names_of_the_agent_s_file_are_set(self) -> None:
        agent = types.ModuleType("__main__")
        names = vars(agent)
        names.update(SHADE=0.25, MARGINS=(40, 5), UNITS=17, WORD="red", play=len)
        self.enter(mock.patch.dict(sys.modules, {"__main__": agent}))
        self.arguments("--set", "SHADE=1.0", "--set", "MARGINS=(30, 0)", "--set", "UNITS=-3")
        self.assertEqual([names[name] for name in ("SHADE", "MARGINS", "UNITS")],
                         [1.0, (30, 0), -3])
        self.arguments("--set", "SHADE=2")
        self.assertEqual(names["SHADE"], 2)
        for text, why in (("SHAED=1", "has no number SHAED in capitals"), ("play=1", "no number"),
                          ("WORD=1", "no number WORD"), ("SHADE", "the same kind as SHADE"),
                          ("SHADE=", "expected"), ("SHADE=high", "expected"), ("=1", "no number"),
                          ("SHADE=(1, 2)", "expected"), ("MARGINS=3", "the same kind as MARGINS")):
            self.assertIn(why, self.refused("--set", text))

    def test_numbers_of_the_examples_that_only_a_class_or_a_function_reads_can_be_set(self) -> None:
        """A name counts where it is read while the agent plays, and not only where it is loaded."""
        for name, numbers in (
                ("planner", ["MOST_FOR_A_SEAT", "MOST_FOR_A_ROOM"]),
                ("trader", ["MOST_FOR_A_ROOM", "MARGIN", "MOST_ROUNDS"]),
                ("baseline", ["SHADE", "AHEAD", "PATIENCE", "LEAST_GAIN", "MARGINS"])):
            tree = ast.parse((TOP / "examples" / "agents" / f"{name}.py").read_text())
            read = {each.id for function in ast.walk(tree) if isinstance(function, ast.FunctionDef)
                    for each in ast.walk(function) if isinstance(each, ast.Name)}
            self.assertEqual(set(numbers) - read, set())

    def test_agents_of_the_clone_get_the_same_link(self) -> None:
        text = (TOP / "examples" / "agents" / "link.py").read_text()
        self.assertIn("from geesefuton.link import *", text)
        for name in ("Link", "Client", "Quote", "HOTELS", "TICKETS", "INBOUND", "OUTBOUND",
                     "arguments", "inbound", "outbound", "room", "ticket", "solve", "program"):
            self.assertIn(name, link.__all__)
            self.assertTrue(hasattr(link, name))

    def test_a_copy_of_an_agent_finds_the_package(self) -> None:
        for name in ("watcher.py", "planner.py", "trader.py", "baseline.py"):
            copy = shutil.copy(TOP / "examples" / "agents" / name, self.folder)
            done = completed(sys.executable, copy, "--help", cwd=self.folder)
            self.assertEqual((done.returncode, done.stdout[:6]), (0, "usage:"), done.stderr)


FULL = "/dev/full"


class Records(Case):
    def setUp(self) -> None:
        super().setUp()
        self.records = self.folder / "new" / "mine"
        self.told: List[str] = []
        self.set(AGENT_RECORD=str(self.records))
        self.enter(mock.patch.multiple(link, BETWEEN=0.01, tell=lambda text: None))
        self.enter(mock.patch("geesefuton.link_record.tell", self.told.append))

    def files(self) -> Dict[str, str]:
        """What each file of the folder holds."""
        return {file.name: file.read_text() for file in self.records.glob("*")}

    def modes(self) -> Set[int]:
        """Who may do what with them."""
        return {file.stat().st_mode & 0o777 for file in self.records.glob("*")}

    def reconnect(self) -> None:
        """An agent reconnects after a while, and asks on."""
        lost, back = [WELCOME, ["@0 cash 5"]], [WELCOME, ["@7 cash 9"]]
        with linked(lost, [["refused taken"]], back) as (agent, _):
            self.assertEqual([agent.cash(), agent.cash()], [5, 9])


class Keeping(Records):
    def test_what_was_sent_and_what_came(self) -> None:
        with linked([WELCOME, ["@4 own 2 ()"], ["no syntax"], ["bye"]]) as (agent, _):
            agent.own(8)
            agent.ask("buy 5")
            agent.quit()
        self.assertEqual(self.files(), {"red.asked": "hello red\nown 8\nbuy 5\nquit\n",
                                        "red.said": SAID + "@4 own 2 ()\nno syntax\nbye\n"})
        self.assertEqual((self.modes(), self.told), ({0o600}, []))

    def test_each_link_has_files_of_its_own(self) -> None:
        self.reconnect()
        self.assertEqual(self.files(), {
            "red.asked": "hello red\ncash\ncash\n", "red.said": SAID + "@0 cash 5\n",
            "red.2.asked": "hello red\ncash\n", "red.2.said": SAID + "@7 cash 9\n"})

    def test_files_that_are_there_are_kept(self) -> None:
        self.records.mkdir(parents=True)
        for name in ("red.said", "red.2.asked"):
            (self.records / name).write_text(name)
        with linked([WELCOME]):
            pass
        self.assertEqual(self.files(), {"red.said": "red.said", "red.2.asked": "red.2.asked",
                                        "red.3.asked": "hello red\n", "red.3.said": SAID})

    def test_a_link_that_is_refused_leaves_none(self) -> None:
        for answer in ("refused taken", "refused wrongword"):
            server = Server([[answer]])
            self.assertRaises(LinkError, Link.greet, "127.0.0.1", server.port, "red")
            server.join()
        self.assertFalse(self.records.exists())

    def test_without_the_variable_there_are_none(self) -> None:
        self.set(AGENT_RECORD="")
        for _ in range(2):
            with linked([WELCOME, ["@0 cash 5"]]) as (agent, _):
                self.assertEqual(agent.cash(), 5)
            os.environ.pop("AGENT_RECORD", None)
        self.assertFalse(self.records.exists())

    def test_a_line_is_written_before_it_is_sent_and_half_a_reply_is_kept(self) -> None:
        files: List[Dict[str, str]] = []
        stream = mock.Mock(sendall=lambda _: files.append(self.files()))
        agent = Link(stream, io.BytesIO(SAID.encode() + b"@0 cash 5\n@1 ca"), "red")
        agent._take_welcome(None)
        agent.cash()
        self.assertRaisesRegex(LinkError, "the link was closed", agent.cash)
        agent.close()
        self.assertEqual([there.get("red.asked") for there in files],
                         [None, "hello red\ncash\n", "hello red\ncash\ncash\n"])
        self.assertEqual(self.files()["red.said"], SAID + "@0 cash 5\n@1 ca")

    def test_a_folder_that_cannot_be_made_is_told_once(self) -> None:
        self.records.parent.mkdir()
        self.records.write_text("a file")
        self.reconnect()
        self.assertEqual(self.told, [f"red: {self.records}: File exists: the agent plays on "
                                     "without its record"])
        self.assertEqual(self.records.read_text(), "a file")

    @unittest.skipUnless(os.path.exists(FULL), "there is no file that takes nothing")
    def test_a_full_disk_is_told_once(self) -> None:
        open_file = os.open

        def opened(name: object, *how: int) -> int:
            return open_file(FULL, os.O_WRONLY) if str(name).endswith(".said") else \
                open_file(str(name), *how)

        with mock.patch("geesefuton.link_record.os.open", opened):
            self.reconnect()
        self.assertEqual(self.told, [f"red: {self.records / 'red.said'}: No space left on device: "
                                     "the agent plays on without its record"])
        self.assertEqual(self.files(), {"red.asked": "hello red\n"})


# The first client comes on day 1 and leaves on day 5, in the cheap hotel.
GOODS = (0, 7, 8, 9, 10, 11)
ASKED = [line for good in GOODS for line in
         [f'{{"do":"own","auction":{good}}}',
          *[f'{{"do":"bid","auction":{good},"points":[[1,600]]}}'] * (good < 8)]]
ASKED += ['{"do":"quote","auction":0}', *(f'{{"do":"own","auction":{good}}}' for good in GOODS),
          '{"do":"cash"}', '{"do":"quit"}']
NOTHING = '{"at":9,"own":0,"points":[]}'
ANSWERS = [NOTHING, '{"at":0,"taken":[1,0]}'] * 2 + [
    *[NOTHING] * 4, '{"at":9,"quote":[0,300],"open":false}', *[NOTHING] * 6,
    '{"at":3,"cash":-7}', '{"bye":true}']


@unittest.skipUnless(shutil.which("node"), "there is no Node")
class JavaScript(Records):
    def run_asker(self, folder: object) -> str:
        """What the agent in JavaScript tells of a game in which it asks ASKED."""
        server = Server([WELCOME, *([answer] for answer in ANSWERS)])
        done = completed("node", TOP / "examples/agents/asker.mjs", "127.0.0.1", server.port, "red",
                         env={"AGENT_RECORD": str(folder)})
        server.join()
        holds = "agent 3 holds 0 0 0 0 0 0 of the goods 0 7 8 9 10 11, cash -7\n"
        self.assertEqual((done.returncode, done.stdout), (0, holds))
        return str(done.stderr)

    def test_it_keeps_the_same(self) -> None:
        for _ in range(2):
            self.assertEqual(self.run_asker(self.records), "")
        both = {"asked": "".join(f"{line}\n" for line in ["hello red", *ASKED]),
                "said": "".join(f"{line}\n" for line in [*WELCOME, *ANSWERS])}
        self.assertEqual(self.files(), {f"{name}.{side}": text for name in ("red", "red.2")
                                        for side, text in both.items()})
        self.assertEqual(self.modes(), {0o600})

    def test_it_plays_on_without_a_record(self) -> None:
        told = self.run_asker("/dev/null/mine").splitlines()
        self.assertEqual(len(told), 1)
        self.assertRegex(told[0], "^asker.mjs: .*/dev/null/mine.*: the agent plays on without its")
