"""Journals: what the server takes a line for, what a reader makes of a journal, and its errors."""

import contextlib
import errno
import json
import os
import threading
import unittest
from typing import Any, Dict, Iterator, List, Optional, Sequence
from unittest import mock

from geesefuton.hosting.journal import (SYNC, Exchange, Journal, JournalError, JournalReader,
                                        Schedule, read_journal)
from geesefuton.hosting.server_links import LinkBytes, server_links
from geesefuton.records.dialects import CASH, Asked, asked_by
from geesefuton.records.games import welcome
from tests.package.cases import FolderCase
from tests.package.helpers import DATA
from tests.package.journals import BEGIN, GAME, HEAD, HEADED, LINES, asks, of_text, told

NO_SPACE = OSError(errno.ENOSPC, "No space left on device")
FAILED = OSError(errno.EIO, "Input/output error")
TICK = '{"tick":0,"t":0}\n'


class Reader(FolderCase):
    def test_a_game(self) -> None:
        reader = read_journal(DATA / "lobby.journal")
        self.assertEqual((reader.form, reader.pace, reader.tick, reader.status),
                         ("words", 100, 54, 0))
        self.assertEqual(reader.pending(), [])
        agents = reader.agents
        self.assertEqual([agent.has_played for agent in agents], [True] * 5 + [False] * 3)
        self.assertEqual({agent.end for agent in agents[5:]}, {"absent"})
        self.assertEqual(agents[4].refused, agents[4].answered)
        self.assertFalse(any(agent.is_here for agent in agents[5:]))

    def test_a_last_line_without_its_end_and_a_journal_that_is_not_there(self) -> None:
        file = self.folder / "journal"
        self.assertRaises(OSError, read_journal, file)
        file.write_text("\n".join(LINES[:20]) + '\n{"tick":')
        self.assertEqual(read_journal(file).lines, 20)
        file.write_bytes(LINES[0].encode() + b'\n{"gone":1}\n\xff\xfe{"a')
        self.assertEqual(read_journal(file).lines, 2)
        file.write_text("")
        self.assertRaisesRegex(JournalError, "lacks the first line", read_journal, file)

    def test_errors_name_the_line(self) -> None:
        head = LINES[0]
        other, bad = (json.dumps({**HEAD, **more})
                      for more in ({"journal": 2}, {"game": "tac 1\n"}))
        for text, line in (("{}", 1), (other, 1), (bad, 1), (f"{head}\n{head}", 2),
                           (f"{head}\nhey", 2), (f"{head}\n[1]", 2), (f"{head}\n7", 2),
                           (f'{head}\n{{"a":8,"q":"cash"}}', 2),
                           (f'{head}\n{{"a":1,"r":"bye","t":1}}', 2),
                           (f'{head}\n{{"a":1,"q":"cash"}}\n{{"a":1,"r":"hey","t":1}}', 3),
                           (f'{head}\n{{"a":1,"q":"cash"}}\n{{"a":1,"r":"bye"}}', 3),
                           (f'{head}\n{{"a":1,"q":"hey"}}\n{{"a":1,"r":"@1 cash 2","t":1}}', 3)):
            with self.subTest(text=text[-40:]), \
                    self.assertRaisesRegex(JournalError, f"line {line} "):
                JournalReader().read(text)


class Keeping(FolderCase):
    """What the file contains, and when."""

    def setUp(self) -> None:
        super().setUp()
        self.file = self.folder / "journal"
        self.warned: List[str] = []

    def open(self) -> Journal:
        journal = Journal(self.file, self.warned.append)
        self.addCleanup(journal.close)
        return journal

    def begun(self) -> Journal:
        """A journal in which a tick has passed."""
        journal = self.open()
        journal.tell(tick=0, t=0)
        return journal

    def test_lines_are_read_as_they_were(self) -> None:
        journal = self.open()
        journal.head(100, "words", HEAD["game"])
        journal.timed(here=3, **{"from": "10.0.0.7"})
        journal.begin_time()
        size = self.file.stat().st_size
        journal.request(3, b'caf\xe9 "\\\n'[:-1])
        journal.request(3, b"x" * 600)
        journal.reply(3, b"no syntax")
        self.assertEqual(self.file.stat().st_size, size)  # nothing is written before `flush`
        journal.flush()
        journal.close()
        lines = [json.loads(line) for line in self.file.read_text().split("\n")[1:-1]]
        self.assertEqual(lines[0], {"here": 3, "from": "10.0.0.7"})
        self.assertEqual(lines[1], {"a": 3, "q": 'caf\xe9 "\\'})
        self.assertEqual(len(lines[2]["q"]), 513)
        self.assertEqual(lines[3]["r"], "no syntax")
        reader = read_journal(self.file)
        agent = reader.agents[3]
        self.assertEqual((agent.asked, agent.refused, self.warned), (2, 1, []))

    def test_lines_of_odd_bytes_take_little_room_and_are_read_as_they_came(self) -> None:
        odd = [b"\xff" * 513, bytes(range(32)) * 16, b'"' * 512, b"\\" * 100, "\xe4 ".encode() * 99]
        journal = self.open()
        journal.head(100, "words", HEAD["game"])
        journal.tell(begin=[0])
        size = self.file.stat().st_size
        for line in odd:
            journal.request(0, line)
            journal.reply(0, b"no syntax")
        journal.close()
        self.assertLess(self.file.stat().st_size - size, 1.5 * sum(map(len, odd)) + 400)
        asked = b"".join(line + b"\n" for line in odd)
        self.assertEqual(server_links(self.file)[0].asked.partition(b"\n")[2], asked)
        self.assertEqual((read_journal(self.file).calls, self.warned), ([], []))

    def test_objects_are_written_at_once_and_lines_with_the_next_flush(self) -> None:
        journal = self.open()
        self.assertTrue(journal.is_whole)
        journal.tell(tick=3, t=300)
        self.assertEqual(self.file.read_text(), '{"tick":3,"t":300}\n')
        journal.request(1, b"cash")
        journal.reply(1, b"@0 cash 0")
        journal.tell(gone=1)
        self.assertEqual(self.file.read_text(),
                         '{"tick":3,"t":300}\n{"a":1,"q":"cash"}\n'
                         '{"a":1,"r":"@0 cash 0","t":0}\n{"gone":1}\n')
        journal.request(2, b"own 5")
        journal.close()
        self.assertEqual(self.file.read_text().split("\n")[-2:], ['{"a":2,"q":"own 5"}', ""])

    def test_times_are_milliseconds_since_the_welcome(self) -> None:
        journal = self.open()
        with mock.patch("time.monotonic", return_value=1000.25) as clock, \
                mock.patch("time.time", return_value=1795906748.9):
            journal.head(2000, "json", "the game")
            self.assertEqual(journal.now(), 0)
            journal.timed(here=1)
            journal.begin_time()
            self.assertEqual(journal.now(), 0)
            clock.return_value = 1002.75
            self.assertEqual(journal.now(), 2500)
            journal.timed(gone=1)
            journal.tell(without=2)
            journal.reply(3, b"bye")
            journal.flush()
        self.assertEqual(self.file.read_text(),
                         '{"journal":1,"at":1795906748,"pace":2000,"form":"json",'
                         '"game":"the game"}\n{"here":1}\n{"gone":1,"t":2500}\n{"without":2}\n'
                         '{"a":3,"r":"bye","t":2500}\n')

    def test_it_is_a_new_file_of_its_owner_whose_name_is_put_onto_the_disk(self) -> None:
        synced: List[os.stat_result] = []
        with mock.patch("os.fsync", lambda number: synced.append(os.fstat(number))):
            journal = self.open()
        self.assertTrue(os.path.samestat(synced[0], self.file.parent.stat()))
        self.assertTrue(all(each.daemon for each in journal._threads))  # a lobby may fail
        self.assertEqual(self.file.stat().st_mode & 0o777, 0o600)
        with self.assertRaises(FileExistsError):
            Journal(self.file, self.fail)
        with self.assertRaises(OSError):
            Journal(self.file / "none", self.fail)
        before = len(os.listdir("/dev/fd"))
        journal.close()  # then it holds no file
        self.assertEqual(len(os.listdir("/dev/fd")), before - 1)

    def test_a_system_that_takes_a_piece_at_a_time(self) -> None:
        journal, write = self.open(), os.write
        with mock.patch("os.write", lambda number, data: write(number, data[:7])):
            for number in range(3):
                journal.request(number, b"cash")
            journal.flush()
        self.assertEqual(self.file.read_text(),
                         "".join(f'{{"a":{number},"q":"cash"}}\n' for number in range(3)))
        self.assertEqual(self.warned, [])

    def test_after_a_fault_nothing_more_is_written(self) -> None:
        journal = self.begun()
        with mock.patch("os.write", side_effect=NO_SPACE):
            journal.tell(tick=1, t=1)
        self.assertFalse(journal.is_whole)
        journal.tell(tick=2, t=2)
        journal.flush()
        self.assertEqual((self.file.read_text(), len(self.warned)), (TICK, 1))
        self.assertIn(str(self.file), self.warned[0])
        self.assertIn("No space left on device", self.warned[0])

    @contextlib.contextmanager
    def syncing(self, fault: Optional[OSError] = None) -> Iterator[threading.Event]:
        """A disk that is asked often to keep the file, and then sets an event, or fails, too."""
        synced = threading.Event()

        def sync(number: int) -> None:
            if os.path.samestat(os.fstat(number), self.file.stat()):
                synced.set()
                if fault:
                    raise fault

        with mock.patch("geesefuton.hosting.journal.SYNC", 0.01), mock.patch("os.fsync", sync):
            yield synced

    def test_what_was_written_is_put_onto_the_disk(self) -> None:
        with self.syncing() as synced:
            journal = self.open()
            for tick in range(2):  # again and again, and not once alone
                journal.tell(tick=tick, t=0)
                self.assertTrue(synced.wait(20))
                synced.clear()
            journal.close()
        with mock.patch("geesefuton.hosting.journal.SYNC", 100.0), mock.patch("os.fsync") as fsync:
            self.file.unlink()
            journal = self.open()
            fsync.reset_mock()  # of the folder
            journal.tell(tick=0, t=0)
            fsync.assert_not_called()
            journal.close()  # waits for the disk
            fsync.assert_called_once()
        self.assertLessEqual(SYNC, 1.0)  # the page for hosts says once a second

    def test_a_file_that_no_disk_has(self) -> None:
        with mock.patch("os.fsync", side_effect=OSError(errno.EINVAL, "Invalid argument")):
            self.begun().close()
        self.assertEqual((self.warned, self.file.read_text()), ([], TICK))

    def test_a_disk_that_fails_is_told_once(self) -> None:
        threads = list[threading.Thread]()
        with self.syncing(FAILED):
            journal = Journal(self.file, lambda text: (
                self.warned.append(text), threads.append(threading.current_thread())))
            self.addCleanup(journal.close)

            def is_warned() -> bool:
                journal.tell(tick=0, t=0)
                return bool(self.warned)

            self.until(is_warned)
            for _ in range(3):
                journal.tell(tick=0, t=0)
            journal.close()
        self.assertEqual(self.warned, [
            f"cannot sync the journal {self.file} to disk (Input/output error): the game goes on, "
            "but a power failure may lose more than its last second"])
        self.assertEqual(threads, [threading.main_thread()])  # that of the game
        self.assertTrue(journal.is_whole)

    def test_a_disk_that_fails_for_the_folder_or_at_the_very_end_is_told(self) -> None:
        with mock.patch("os.fsync", side_effect=FAILED):
            journal = self.begun()
            self.assertEqual(len(self.warned), 1)
            journal.close()
        self.assertEqual(len(self.warned), 1)
        self.file.unlink()
        journal = self.begun()
        with mock.patch("os.fsync", side_effect=FAILED):
            journal.close()
        self.assertEqual(len(self.warned), 2)

    def test_a_disk_that_stalls_is_told_and_waited_for(self) -> None:
        goes_on, write = threading.Event(), os.write

        def slow(number: int, data: bytes) -> int:
            goes_on.wait(60.0)
            return write(number, data)

        self.patch("hosting.journal.SYNC", 0.01)
        self.patch("hosting.journal.STALL", 0.05)
        with mock.patch("os.write", slow):
            journal = self.open()
            told = threading.Thread(target=journal.tell, kwargs={"tick": 0, "t": 0})
            told.start()
            self.until(lambda: self.warned)
            self.assertEqual(self.file.read_text(), "")
            goes_on.set()
            told.join()
            journal.close()
        self.assertEqual(self.warned, [f"the disk of the journal {self.file} has taken nothing for "
                                       "0.05 seconds: the game waits for it"])
        self.assertEqual((self.file.read_text(), journal.is_whole), (TICK, True))


class Meaning(unittest.TestCase):
    """What a reader makes of each line."""

    def setUp(self) -> None:
        self.reader = of_text(LINES[:1])

    def read(self, *lines: Dict[str, Any]) -> JournalReader:
        self.reader.read("".join(json.dumps(line) + "\n" for line in lines))
        return self.reader

    def test_the_first_line(self) -> None:
        reader = self.reader
        self.assertEqual((reader.text, reader.form, reader.pace, reader.at, reader.lines),
                         (HEAD["game"], "words", 100, HEAD["at"], 1))
        assert reader.game is not None and reader.schedule is not None
        self.assertEqual(reader.game.text(), HEAD["game"])
        self.assertEqual(reader.schedule.ticks, Schedule(reader.game).ticks)
        self.assertEqual((reader.has_begun, reader.is_playing, reader.status, reader.calls),
                         (False, False, None, []))

    def test_lines_that_have_no_position(self) -> None:
        for line in ("quit", "hm", "own 1\r", "own 1" + " " * 600,
                     f"bid 5 ({' '.join(['(1 1)'] * 17)})"):
            self.assertIsNone(asked_by(line, "words"), line)

    def test_links(self) -> None:
        agents = self.reader.agents
        self.read({"without": 3}, {"here": 1, "from": "x"})
        self.assertEqual([agent.is_here for agent in agents], [False, True] + [False] * 6)
        self.assertEqual([agent.is_waived for agent in agents], [False] * 3 + [True] + [False] * 4)
        self.assertFalse(any(agent.has_played for agent in agents))
        self.read({"here": 3, "from": "x"}, {"gone": 1})
        self.assertEqual((agents[3].is_waived, agents[3].is_here, agents[1].is_here),
                         (False, True, False))
        self.read({"without": 3})
        self.assertFalse(agents[3].is_waived)  # it is here, so that changes nothing
        self.read({"begin": [3, 5]})
        self.assertEqual([agent.has_played for agent in agents],
                         [False] * 3 + [True, False, True, False, False])
        self.read({"here": 6, "from": "x"})  # before the welcome
        self.assertTrue(agents[6].has_played)
        self.read({"tick": 6, "t": 600}, {"here": 1, "from": "x", "t": 601})
        self.assertEqual((agents[1].has_played, agents[1].last, agents[3].last), (True, 6, 0))
        self.read({"end": 1, "why": "hung", "t": 700}, {"gone": 1, "t": 701})
        self.assertEqual((agents[1].end, agents[1].has_played, agents[3].end), ("hung", True, None))

    def test_time(self) -> None:
        reader = self.read({"begin": []})
        self.assertEqual((reader.has_begun, reader.is_playing), (False, True))
        self.read({"tick": 0, "t": 0})
        self.assertEqual((reader.has_begun, reader.tick, reader.time), (True, 0, 0))
        self.read({"tick": 4, "t": 433}, {"gone": 2, "t": 430})
        self.assertEqual((reader.tick, reader.time, reader.status), (4, 433, None))
        self.read({"over": 137, "t": 440})
        self.assertEqual((reader.status, reader.time, reader.lines), (137, 440, 6))

    def test_requests_and_replies(self) -> None:
        reader = self.read({"tick": 2, "t": 200}, {"a": 1, "q": "own 20"}, {"a": 1, "q": "cash"},
                           {"tick": 3, "t": 300}, {"a": 2, "q": "hm"},
                           {"a": 1, "r": "@4 own 0 ()", "t": 311},
                           {"a": 2, "r": "no syntax", "t": 322},
                           {"a": 1, "r": "@0 cash -7", "t": 333}, {"a": 1, "q": "quit"},
                           {"tick": 4, "t": 400}, {"a": 1, "r": "bye", "t": 404})
        self.assertEqual(reader.calls, [
            Exchange(1, Asked("own", 20, "own 20"), 3, 2, "@4 own 0 ()", 4, 311, 7),
            Exchange(1, Asked("cash", CASH, "cash"), 4, 2, "@0 cash -7", 0, 333, 9)])
        first, second = reader.agents[1:3]
        self.assertEqual((first.asked, first.answered, first.refused, first.last), (3, 3, 0, 3))
        self.assertEqual((second.asked, second.answered, second.refused, second.last), (1, 1, 1, 3))
        # What an auction refuses was asked.
        self.read({"a": 3, "q": "withdraw 9"}, {"a": 3, "r": "@4 no wrongcall", "t": 5},
                  {"a": 3, "q": "bid 9 ((1 0))"}, {"a": 3, "r": "no bid 4", "t": 6})
        agent = self.reader.agents[3]
        self.assertEqual((agent.asked, agent.answered, agent.refused), (2, 2, 1))

    def test_requests_without_a_reply(self) -> None:
        reader = self.read({"tick": 2, "t": 200}, *(
            {"a": 5, "q": line} for line in ("cash", "quote 3", "bid 3 ((1 0))", "hm", "quit",
                                             "withdraw 4", "own 28", "bid 27 ((1 5))")),
            {"a": 7, "q": "own 0"}, {"a": 0, "q": "own 1"})
        self.assertEqual(reader.pending(), [Exchange(0, Asked("own", 1, "own 1"), 12, 2),
                                            Exchange(5, Asked("withdraw", 4, "withdraw 4"), 8, 2),
                                            Exchange(5, Asked("bid", 27, "bid 27 ((1 5))"), 10, 2),
                                            Exchange(7, Asked("own", 0, "own 0"), 11, 2)])

    def test_json(self) -> None:
        lines = [{**HEAD, "form": "json"}, {"a": 1, "q": '{"do":"own","auction":20}'},
                 {"a": 1, "r": '{"at":4,"own":0,"points":[]}', "t": 3}, {"a": 1, "q": "own 20"},
                 {"a": 1, "r": '{"no":"syntax"}', "t": 5},
                 {"a": 1, "q": '{"do":"own","auction":2}'}]
        reader = of_text([*map(json.dumps, lines)])
        self.assertEqual([(call.asked.text, call.reply, call.at) for call in reader.calls],
                         [("own 20", "@4 own 0 ()", 4)])
        self.assertEqual((reader.agents[1].refused, [call.asked for call in reader.pending()]),
                         (1, [Asked("own", 2, "own 2")]))

    def test_a_copy_stays_as_it_is(self) -> None:
        reader = self.read({"tick": 2, "t": 200}, {"a": 1, "q": "own 20"})
        other = reader.copy()
        self.read({"a": 1, "r": "@0 own 0 ()", "t": 210}, {"a": 1, "q": "own 21"},
                  {"here": 4, "from": "x"}, {"tick": 3, "t": 300}, {"over": 0, "t": 310})
        self.assertEqual((other.tick, other.time, other.status, other.calls, other.lines),
                         (2, 200, None, [], 3))
        agent = other.agents[1]
        self.assertEqual((agent.asked, agent.answered, len(agent.waiting)), (1, 0, 1))
        self.assertFalse(other.agents[4].is_here)


class Clock(unittest.TestCase):
    def test_spans(self) -> None:
        schedule = Schedule(GAME)
        self.assertEqual(sum(map(len, schedule.ticks)), 480)
        self.assertEqual(schedule.span(0, 0), (0, 0))
        self.assertEqual(schedule.span(0, 3), (3, 3))
        self.assertEqual(schedule.span(0, 54), (54, 54))
        good = GAME.closing[1]
        self.assertEqual(schedule.ticks[good], [6, 12])
        self.assertEqual([schedule.span(good, count) for count in range(3)],
                         [(0, 5), (6, 11), (12, 54)])
        self.assertEqual([schedule.span(20, count) for count in range(2)], [(0, 53), (54, 54)])
        self.assertEqual([schedule.most(good, tick) for tick in (5, 6, 54)], [0, 1, 2])


class ServerLinks(FolderCase):
    """The bytes of the lobby's own links, by its journal."""

    def links(self, lines: Sequence[str], end: str = "\n") -> List[LinkBytes]:
        file = self.folder / "journal"
        file.write_text("\n".join(lines) + end)
        return server_links(file)

    def test_lines_and_replies_are_those_of_each_seat(self) -> None:
        links = self.links([*HEADED, asks(2, "own 16"), asks(5, "\xff"), told(5, "no syntax"),
                            told(2, "@0 own 1 ()"), asks(2, "x" * 513)])
        self.assertEqual(len(links), 8)
        hello = [f"hello {word}\n".encode() for word in GAME.words]
        self.assertEqual(links[2], (hello[2] + b"own 16\n" + b"x" * 513 + b"\n",
                                    welcome(GAME.text(), 2) + b"@0 own 1 ()\n"))
        self.assertEqual(links[5], (hello[5] + b"\xff\n", welcome(GAME.text(), 5) + b"no syntax\n"))
        for seat in (0, 1, 3, 4, 6, 7):
            self.assertEqual(links[seat], (hello[seat], welcome(GAME.text(), seat)))

    def test_before_the_welcome_nothing_was_said_and_half_a_line_is_left_out(self) -> None:
        self.assertEqual(self.links(LINES[:1]), [])
        links = self.links([LINES[0], BEGIN])
        self.assertEqual(links[7], (b"hello %b\n" % GAME.words[7].encode(), b""))
        links = self.links([*HEADED, asks(0, "cash"), asks(1, "cash")], end="")
        self.assertTrue(links[0].asked.endswith(b"\ncash\n"))
        self.assertEqual(links[1].asked.count(b"\n"), 1)
        self.assertRaises(JournalError, self.links, ["x"])

    def test_a_whole_game(self) -> None:
        links = server_links(DATA / "lobby.journal")
        objects = [json.loads(line) for line in LINES]
        for seat, link in enumerate(links):
            asked = [each["q"] for each in objects if each.get("a") == seat and "q" in each]
            said = [each["r"] for each in objects if each.get("a") == seat and "r" in each]
            self.assertEqual(link.asked.decode("latin-1").split("\n")[1:-1], asked)
            self.assertEqual(link.said.decode("latin-1").split("\n")[10:-1], said)
        self.assertTrue(any(link.asked.count(b"\n") > 20 for link in links))
