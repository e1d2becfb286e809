"""The reader of logs."""

import re
import unittest
from typing import Iterator, List, Union

from geesefuton.records.games import Package
from geesefuton.records.logs import (Call, Entry, Log, LogError, Post, Reading, Trade, read_log,
                                     read_scores, trades_of)
from geesefuton.records.replies import Below, Done, No, Own, Sold, Taken
from tests.package.helpers import PLAYED, SERVED_LOG, served_log


def lines_of(log: Log) -> Iterator[str]:
    """The lines of a log without its certificates, written apart from the package. Seats are those
    of the links in their order."""
    yield from ("taclog 1", log.kind)
    if log.kind == "serve":
        yield from (f"link {seat} seated {seat}" for seat in log.seats)
        yield from (f"end {agent} {why}" for agent, why in log.ends.items())
        yield f"missed {log.missed}"
    for good, history in enumerate(log.histories):
        yield f"auction {good} {len(history)}"
        for entry in history:
            yield text_of(entry)
            for trade in entry.trades:
                yield f"trade {trade.buyer} {trade.seller} {trade.units} {trade.price}"
    yield f"cash {len(log.cash)}"
    for each in log.cash:
        yield f"{each.agent} read = {each.dollars}" if isinstance(each, Reading) else \
            f"{each.caller} post {each.good} {each.position} {' '.join(map(str, each.nets))}"
    yield "sheet"
    for row in log.scores:
        yield f"score {row.agent} {row.best} {row.cash} {row.short} {row.score}"
        for client, trip in enumerate(row.packages):
            yield f"package {row.agent} {client} " + (
                "none" if trip is None else
                " ".join(map(str, (trip.hotel, trip.arrive, trip.depart, *trip.nights))))
    yield "end"


def text_of(entry) -> str:  # type: ignore[no-untyped-def]
    """The line of an entry."""
    call: Call = entry.call
    words = {"bid": "bid " + "(" + " ".join(f"({u} {c})" for u, c in call.points) + ")",
             "update": f"update {call.tick} {call.draw}"}.get(call.do, call.do)
    reply = entry.reply
    if isinstance(reply, Taken):
        told = f"taken {reply.bought} {reply.sold}"
    elif isinstance(reply, Done):
        told = "done"
    elif isinstance(reply, Sold):
        told = f"sold {reply.units} {reply.price}"
    elif isinstance(reply, Own):
        told = f"own {reply.holding} (" + " ".join(f"({u} {c})" for u, c in reply.points) + ")"
    else:
        assert isinstance(reply, No)
        told = f"no {reply.reason}"
        if reply.below:
            told += f" {reply.below.need} {reply.below.price} {reply.below.offered}"
    return f"{entry.caller} {words} = {told}"


class Kept(unittest.TestCase):
    def test_logs_are_what_their_lines_say(self) -> None:
        """All is written again, and has to give the lines that it was read from."""
        played = PLAYED.read_text()
        for text in (SERVED_LOG.read_text(), played[played.index("taclog 1"):]):
            log = read_log(text)
            self.assertEqual(list(lines_of(log)), re.findall(r"(?m)^(?!cert|leaf).+$", text))
            self.assertEqual(trades_of(log.histories), text.count("\ntrade "))
            self.assertEqual(read_scores(text.encode()), log.scores)
        self.assertEqual((log.kind, log.ends, log.seats), ("play", {}, tuple(range(8))))

    def test_calls_of_agents(self) -> None:
        calls = [served_log().calls_of(caller) for caller in range(9)]
        self.assertEqual((calls[3:7], calls[8]), ([0, 1, 0, 0], 480))
        self.assertEqual(sum(calls), sum(map(len, served_log().histories)))


class Faults(unittest.TestCase):
    """Every error names the line that `tac audit` names."""

    def setUp(self) -> None:
        self.lines: List[str] = SERVED_LOG.read_text().split("\n")[:-1]

    def place(self, pattern: str) -> int:
        """The number of the first line that matches, from 1."""
        return next(number for number, line in enumerate(self.lines, 1) if re.match(pattern, line))

    def refuse(self, line: int, new: str, why: str, due: int = 0) -> None:
        """Replaces a line by others, and looks for the error at it, or at `due`."""
        lines = [*self.lines[:line - 1], *new.split("\n"), *self.lines[line:]]
        self.refuse_text("\n".join(lines) + "\n", due or line, why)

    def refuse_text(self, text: Union[str, bytes], line: int, why: str) -> None:
        with self.assertRaisesRegex(LogError, f"^line {line}: .*{re.escape(why)}") as caught:
            read_log(text)
        self.assertEqual(caught.exception.line, line)

    def accept(self, line: int, new: str) -> Log:
        """Replaces a line by others, which fit."""
        return read_log("\n".join([*self.lines[:line - 1], new, *self.lines[line:], ""]))

    def test_who_had_a_seat(self) -> None:
        head = ["link 0 wrongword", "link 1 seated 5", "link 2 taken", "link 3 seated 0",
                "link 4 syntax", "link 5 lost", "end 5 writefault", "end 0 readfault",
                "end 6 budget", "missed 255"]
        log = read_log("\n".join([*self.lines[:2], *head, *self.lines[self.place("missed"):], ""]))
        self.assertEqual((log.seats, log.missed), ((0, 5), 255))
        self.assertEqual(log.ends, {0: "readfault", 5: "writefault", 6: "budget"})

    def test_what_numbers_of_a_line_mean(self) -> None:
        place = self.place("8 update")
        position = place - self.place("auction 0 ") - 1 - sum(
            line.startswith("trade ") for line in self.lines[:place])
        entry = self.accept(place, "8 update 7 99 = done").histories[0][position]
        self.assertEqual(entry, Entry(8, Call("update", (), 7, 99), Done(None)))
        entry = self.accept(place, "2 bid ((2 70) (-1 95)) = no belowquote 3 101 2\n"
                                   "trade 1 2 3 4").histories[0][position]
        self.assertEqual(entry, Entry(2, Call("bid", ((2, 70), (-1, 95))),
                                      No(None, "belowquote", 0, Below(3, 101, 2)),
                                      (Trade(1, 2, 3, 4),)))
        post = self.place("[0-8] post")
        self.assertIn(Post(3, 20, 1, (1, -2, 3, -4, 5, -6, 7, -8, 4)),
                      self.accept(post, "3 post 20 1 1 -2 3 -4 5 -6 7 -8 4").cash)
        self.assertIn(Reading(6, -77), self.accept(post, "6 read = -77").cash)
        score = self.accept(self.place("score 1"), "score 1 2 -3 4 -5").scores[1]
        self.assertEqual((score.agent, score.best, score.cash, score.short, score.score),
                         (1, 2, -3, 4, -5))
        packages = self.accept(self.place("package 1 2 "), "package 1 2 1 2 5 4 0 3").scores[1]
        self.assertEqual(packages.packages[2], Package(1, 2, 5, (4, 0, 3)))

    def test_lines_that_say_nothing(self) -> None:
        auction, update, post = map(self.place, ("auction 1 ", "8 update", "[0-8] post"))
        entries = int(self.lines[auction - 1].split()[2])
        many = " ".join(["(1 5)"] * 17)
        for place, *bad in (
                (1, "taclog 2"), (2, "served"), (4, "link 1 seated 8"), (4, "linked"),
                (self.place("end "), "end 8 quit"), (self.place("missed"), "missed"),
                (auction, "auction 2 54"),
                (update, "9 update 1 0 = done", "8 update 1 = done", "8 update 1 0 = done ",
                 "8 update 1 0", "8 raise = done", "8 bid () = taken 0 0", "8 bid (1 5) = done x",
                 "-1 own = own 0 ()", "8 update 54 0 = done", "8 update 0 0 = done",
                 "8 update 1 0 = fine", "8 update 1 0 = done\r", f"0 bid ({many}) = taken 0 0",
                 "0 bid ((17 5)) = taken 0 0"),
                (self.place("trade"), "trade 9 8 1 5", "trade 0 8 1"),
                (self.place("cash "), "cash x"),
                (post, "0 post 28 0 0 0 0 0 0 0 0 0 0", "0 post 0 8256 0 0 0 0 0 0 0 0 0",
                 "0 post 0 0 0 0 0 0 0 0 0 0", "8 read = 5"),
                (self.place("score 1"), "score 2 0 -726 0 -726", "score 1 0 0 0"),
                (self.place("sheet"), "sheets"), (self.place("cert 1 "), "cert 2 1"),
                (self.place("package 1 2 "), "package 2 2 none", "package 1 3 none",
                 "package 1 2 2 1 3 0 0 0", "package 1 2 0 3 2 0 0 0", "package 1 2 0 1 3 1 1 0")):
            for line in bad:
                self.refuse(place, line, "")
        self.refuse(2, "play", "expected a line `auction 0 `", 3)
        self.refuse(auction, f"auction 1 {entries - 1}", "expected a line `auction 2 `",
                    self.place("auction 2 ") - 1)
        self.refuse(auction, f"auction 1 {entries + 1}", "", self.place("auction 2 "))
        self.refuse(self.place("cash "), "cash 238048", "", self.place("sheet"))
        self.refuse(self.place("sheet"), "memory", "memory was refused for the scores")
        self.refuse(self.place("cert 1 "), "cert 1 0", "expected a line `score 2 `",
                    self.place("cert 1 ") + 1)
        self.refuse(self.place("cert 1 "), "cert 1 100000", "", len(self.lines) + 1)
        for tick in (1, 53):
            self.accept(update, f"8 update {tick} 4294967295 = done")
        for good in (f"({many[6:]})", "((16 10000))", "((-16 1))", "((15 1) (-1 1))"):
            self.accept(update, f"0 bid {good} = taken 0 0")

    def test_ends_of_the_text(self) -> None:
        text = "\n".join(self.lines) + "\n"
        count = len(self.lines)
        for other, line, why in (
                (text + "end\n", count + 1, "a line follows the end"),
                (text + "x", count + 1, "a line follows the end"),
                (text[:-1], count, "has no line end"),
                ("\n".join(self.lines[:30]) + "\n", 31, "but the text ends"),
                ("", 1, "but the text ends"), (b"taclog 1\n\xff\n", 2, ""),
                ("x" * 67_108_864, 1, "no line end"), ("x" * 67_108_865, 1, "bytes")):
            self.refuse_text(other, line, why)
        # The lines before a cut are a beginning of a log, and the first missing one is told.
        for cut in (18, 60, 400, 640, 715, 722, 729, count - 30):
            self.refuse_text("\n".join(self.lines[:cut]) + "\n", cut + 1, "")

    def test_a_sheet_alone(self) -> None:
        self.assertRaisesRegex(LogError, "expected a line `sheet`", read_scores, "taclog 1\nplay\n")
        line = self.place("score 1")
        with self.assertRaisesRegex(LogError, f"^line {line}: "):
            read_scores("\n".join([*self.lines[:line - 1], "x", *self.lines[line:], ""]))
