"""Recovery: scripts of journals, with the program where it is there; and the command that makes a
log of a journal."""

import os
import random
import subprocess
import unittest
from dataclasses import replace
from typing import Any, Dict, List, Sequence, Tuple
from unittest import mock

from geesefuton import program
from geesefuton.hosting.journal import Exchange, JournalReader, Schedule, read_journal
from geesefuton.hosting.recovery import (KnownHistory, Player, Recovery, RecoveryError, Script,
                                         differences, script_of)
from geesefuton.processes import Output
from geesefuton.records.dialects import Asked, position_of
from geesefuton.records.logs import read_log
from tests.package.cases import FolderCase
from tests.package.helpers import (COMMAND, DATA, CountingPlayer, fake_program, needs_program,
                                   refusal)
from tests.package.journals import (BEGIN, GAME, HEADED, LINES, PlayedCase, asks, cut_lines,
                                    of_text, parts_of, told)


def call(good: int, at: int, tick: int = 0, order: int = 0, agent: int = 1) -> Exchange:
    return Exchange(agent, Asked("own", good, f"own {good}"), order, tick, f"@{at} own 0 ()", at)


class Placing(unittest.TestCase):
    """Where the calls of an auction stand between the ticks."""

    def ticks(self, good: int, calls: Sequence[Tuple[int, int]]) -> List[int]:
        history = KnownHistory(good, Schedule(GAME))
        for at, tick in calls:
            history.place(call(good, at, tick))
        return [tick for tick, _ in history.items(quotes=True)]

    def test_the_clock_calls_flights_at_each_tick_hotels_at_each_sixth_and_tickets_at_the_end(
            self) -> None:
        for good, calls, due in ((0, [(0, 0), (1, 3), (4, 0), (5, 1)], [0, 0, 2, 2]),
                                 (GAME.closing[1], [(0, 2), (1, 9), (3, 4), (5, 33)],
                                  [2, 5, 6, 33]),
                                 (20, [(0, 7), (1, 3), (2, 9), (4, 54)], [7, 7, 9, 54])):
            self.assertEqual(self.ticks(good, calls), due)
        for good, calls, fault in ((GAME.closing[1], [(3, 40)], "neither the clock's"),
                                   (20, [(0, 7), (0, 8)], "two replies")):
            with self.assertRaisesRegex(RecoveryError, fault):
                self.ticks(good, calls)

    def test_between_two_ticks_the_eldest_is_first(self) -> None:
        items = [(1, call(0, 1, order=9)), (1, call(20, 0, order=5)), (1, call(20, 1, order=12)),
                 (3, call(0, 4, order=13))]
        self.assertEqual(script_of(items).text, "tick\n1 own 20\n1 own 0\n1 own 20\ntick\ntick\n"
                                                "1 own 0\n")

    def test_what_may_not_have_come_yet_is_left_out(self) -> None:
        history = KnownHistory(0, Schedule(GAME))
        for at in (0, 2, 5):
            history.place(call(0, at))
        history.cut(1)
        self.assertEqual(sorted(history.calls), [0, 2])

    def test_the_length_of_a_history_is_worked_out_once_however_many_calls_it_has(self) -> None:
        history = KnownHistory(0, Schedule(GAME))
        for at in range(20):
            history.place(call(0, at))
        with mock.patch.object(KnownHistory, "length", return_value=20) as length:
            self.assertEqual(len(list(history.items(quotes=False))), 20)
        length.assert_called_once_with()

    # Which requests without a reply were made, by what others were told.

    def settle(self, places: Sequence[int], agents: Sequence[int], right: Dict[int, int],
               good: int = 20, tick: int = 10) -> bool:
        """Calls at these places, and a request of each of these agents without a reply: whether it
        is guessed that these agents' requests are at the right places."""
        history = KnownHistory(good, Schedule(GAME))
        for at in places:
            history.place(replace(call(good, at), answered=100))
        for agent in agents:
            history.pending[agent] = replace(call(good, 0, agent=agent), at=None)
        known = dict(history.calls)
        return any(history.guess(known, guess) and right == {
            at: one.agent for at, one in history.calls.items() if at not in known}
            for guess in history.guesses(tick))

    def test_none_and_some(self) -> None:
        self.assertTrue(self.settle([0, 1, 2], [2, 3], {}))
        self.assertTrue(self.settle([0, 2], [2, 3], {1: 3}))
        self.assertTrue(self.settle([0, 3], [2, 3], {1: 3, 2: 2}))
        self.assertTrue(self.settle([0, 4], [2, 3, 5], {1: 3, 2: 5, 3: 2}))
        self.assertTrue(self.settle([0, 3], [2, 3], {2: 3}, tick=54))  # the other is the clock's
        self.assertTrue(self.settle([0, 9], [2, 3, 4, 5], {1: 2, 2: 3, 3: 4, 4: 5}, good=0,
                                    tick=4))  # the other four gaps of a flight are the clock's
        self.assertFalse(self.settle([0, 2], [2], {7: 7}))

    def test_none_stands_before_what_was_known(self) -> None:
        auction = KnownHistory(20, Schedule(GAME))
        auction.place(replace(call(20, 1), answered=10))
        auction.pending[2] = replace(call(20, 0, order=20, agent=2), at=None)
        self.assertEqual(list(auction.guesses(54)), [{}, {}])


def journal(*lines: str, tick: int = 0) -> JournalReader:
    """A journal of a game that has begun, with these lines after a tick."""
    ticks = [f'{{"tick":{number},"t":{100 * number}}}' for number in range(tick + 1)]
    return of_text([LINES[0], BEGIN, *ticks, *lines])


def asked(calls: Sequence[Exchange]) -> List[str]:
    return [f"{call.agent} {call.asked.text}" for call in calls]


def called(log: str) -> Dict[str, List[str]]:
    """For each auction the callers and calls of its entries, as the lines of a log have them."""
    calls: Dict[str, List[str]] = {}
    for line in log[:log.index("\ncash ")].split("\n"):
        if line.startswith("auction "):
            calls[line] = []
        elif calls and not line.startswith("trade "):
            calls[list(calls)[-1]].append(line.split(" = ")[0])
    return calls


class Making(unittest.TestCase):
    """Scripts of journals, with a player that counts positions."""

    def setUp(self) -> None:
        self.player = CountingPlayer()

    def make(self, reader: JournalReader, **how: bool) -> Recovery:
        player: Any = self.player
        return Recovery(reader, player, **how)

    def check(self, recovery: Recovery, made: Sequence[str], left: Sequence[str],
              lines: Sequence[str]) -> None:
        """The requests without a reply that are in a script and those that are not; its lines."""
        self.assertEqual((asked(recovery.made), asked(recovery.left), self.lines(recovery)),
                         ([*made], [*left], [*lines]))

    def lines(self, recovery: Recovery) -> List[str]:
        return recovery.script().text.splitlines()

    def test_the_histories_of_a_whole_game_are_those_of_its_log(self) -> None:
        recovery = self.make(read_journal(DATA / "lobby.journal"))
        script = recovery.script()
        replies, log = self.player.play(GAME.text(), script.text)
        self.assertEqual(called(log), called((DATA / "lobby.log").read_text()))
        for call, reply in zip(script.calls, replies):
            assert call.asked is not None
            if call.asked.keyword != "cash":  # in the cash book posts count, too
                self.assertEqual(position_of(reply[2:]), call.at, call)
        self.assertEqual(len(replies), len(script.calls))
        without = recovery.script(quotes=False)
        self.assertEqual(asked(without.calls), [line for line in asked(script.calls)
                                                if " quote " not in line])

    def test_readings_of_cash_come_in_the_order_of_the_book(self) -> None:
        script = self.make(read_journal(DATA / "lobby.journal")).script()
        book = [line.split('"')[5] for line in LINES if '"r":"@' in line and " cash " in line]
        self.assertEqual(sorted(book, key=lambda text: position_of(text) or 0),
                         [call.reply for call in script.calls
                          if call.asked is not None and call.asked.keyword == "cash"])
        reader = journal(asks(1, "cash"), asks(2, "cash"), '{"tick":3,"t":300}',
                         told(2, "@1 cash 0"), asks(3, "cash"), told(3, "@0 cash 0"),
                         told(1, "@2 cash 0"), asks(4, "cash"), told(4, "@3 cash 0"))
        self.assertEqual(self.lines(self.make(reader)),
                         ["tick"] * 3 + ["3 cash", "2 cash", "1 cash", "4 cash"])
        reader = journal(asks(1, "cash"), told(1, "@0 cash 0"), tick=0)
        self.assertEqual(self.lines(self.make(reader)), ["1 cash"])

    def test_which_requests_are_in_the_script_and_where(self) -> None:
        """The lines of a journal after a tick; those without a reply that are in the script and
        those that are left out; and the script."""
        rows: Sequence[Tuple[int, Sequence[str], Sequence[str], Sequence[str], List[str]]] = (
            # Lines that were refused are not.
            (0, [asks(1, "buy 5"), told(1, "no syntax"), asks(1, "bid 5 ()"), told(1, "no bid 1"),
                 asks(1, "own 20"), told(1, "@0 own 0 ()"), asks(2, "own 21"), told(2, "no spent"),
                 asks(2, "quit"), asks(3, "hm")], [], [], ["1 own 20"]),
            # Another agent's reply has the second position, so `own 20` of agent 1 had the first.
            (0, [asks(1, "own 20"), asks(3, "own 22"), asks(2, "own 20"), told(2, "@1 own 0 ()")],
             ["1 own 20"], ["3 own 22"], ["1 own 20", "2 own 20"]),
            # A request stands after what was known when it was sent.
            (0, [asks(3, "own 20"), asks(2, "quote 20"), told(2, "@1 quote 0 0 open"),
                 asks(1, "own 20"), asks(2, "own 20"), told(2, "@2 own 0 ()")],
             ["3 own 20", "1 own 20"], [], ["3 own 20", "2 quote 20", "1 own 20", "2 own 20"]),
            (0, [asks(2, "own 20"), told(2, "@0 own 0 ()"), asks(1, "own 20"), asks(3, "own 20"),
                 told(3, "@2 own 0 ()")],
             ["1 own 20"], [], ["2 own 20", "1 own 20", "3 own 20"]),
            (0, [asks(3, "own 20"), asks(2, "own 20"), told(2, "@1 own 0 ()"), asks(1, "own 20")],
             ["3 own 20"], ["1 own 20"], ["3 own 20", "2 own 20"]),
            # The clock's call is the likelier one.
            (54, [asks(1, "own 20"), asks(2, "own 20"), told(2, "@1 own 0 ()")],
             [], ["1 own 20"], ["tick"] * 54 + ["2 own 20"]),
            # The lobby has not told a tick, and the server has made two: so one bid was made.
            (0, [asks(3, "bid 0 ((1 70))"), asks(2, "quote 0"), told(2, "@1 quote 0 0 open"),
                 asks(1, "bid 0 ((1 50))"), asks(2, "quote 0"), told(2, "@3 quote 50 0 open")],
             ["1 bid 0 ((1 50))"], ["3 bid 0 ((1 70))"],
             ["tick", "2 quote 0", "1 bid 0 ((1 50))", "tick", "2 quote 0"]),
            # Requests in several auctions are found together.
            (0, [*(asks(agent, f"bid {20 + agent} ((1 5))") for agent in range(3)),
                 asks(3, "quote 20"), told(3, "@0 quote 0 0 open"), asks(3, "quote 21"),
                 told(3, "@1 quote 5 0 open"), asks(3, "own 22"), told(3, "@1 own 0 ()")],
             ["1 bid 21 ((1 5))", "2 bid 22 ((1 5))"], ["0 bid 20 ((1 5))"],
             ["1 bid 21 ((1 5))", "2 bid 22 ((1 5))", "3 quote 20", "3 quote 21", "3 own 22"]))
        for tick, lines, made, left, script in rows:
            with self.subTest(lines=lines):
                recovery = self.make(journal(*lines, tick=tick))
                self.check(recovery, made, left, script)
                self.assertEqual(recovery.log()[1], [])

    def test_what_a_quote_shows_tells_whose_request_was_made(self) -> None:
        bids = [asks(1, "bid 20 ((1 50))"), asks(3, "bid 20 ((1 70))"), asks(2, "quote 20")]
        for reply, made in (("@0 quote 0 0 open", []), ("@1 quote 50 0 open", [1]),
                            ("@1 quote 70 0 open", [3]), ("@2 quote 70 0 open", [1, 3])):
            recovery = self.make(journal(*bids, told(2, reply)))
            self.assertEqual(sorted(call.agent for call in recovery.made), made)
            self.assertEqual([call.agent for call in recovery.left],
                             [agent for agent in (1, 3) if agent not in made])
            self.assertEqual(recovery.log()[1], [])

    def test_replies_of_which_no_request_can_be_the_cause(self) -> None:
        reader = journal(asks(1, "bid 20 ((1 50))"), asks(2, "quote 20"),
                         told(2, "@1 quote 60 0 open"))
        with self.assertRaisesRegex(RecoveryError, "good 20: its 1 requests .* cannot be placed"):
            self.make(reader)
        reader = journal(asks(2, "own 20"), told(2, "@3 own 0 ()"), asks(2, "own 20"))
        with self.assertRaisesRegex(RecoveryError, "good 20"):
            self.make(reader)

    def test_pending_requests_are_asked_after_all_others(self) -> None:
        reader = journal(asks(1, "own 0"), asks(2, "own 0"), told(2, "@3 own 0 ()"),
                         asks(3, "own 20"), asks(2, "own 20"), told(2, "@0 own 0 ()"), tick=5)
        begin, pending = ["tick"] * 3 + ["2 own 0"] + ["tick"] * 2, ["1 own 0", "3 own 20"]
        self.check(self.make(reader), [], pending, [*begin, "2 own 20"])
        self.check(self.make(reader, pending=True), pending, [],
                   [*begin, "1 own 0", "2 own 20", "3 own 20"])
        reader = journal(asks(3, "own 20"), asks(1, "own 20"))
        self.assertEqual(self.lines(self.make(reader, pending=True)), ["3 own 20", "1 own 20"])

    def test_a_game_that_still_runs(self) -> None:
        # The replies at position 0 of the goods 26 and 27 are about to come, and so is that at 6 of
        # good 0.
        lines = [asks(1, "own 27"), asks(2, "own 27"), told(2, "@1 own 0 ()"), asks(3, "own 21"),
                 told(3, "@0 own 0 ()"), asks(3, "own 0"), told(3, "@5 own 0 ()"),
                 asks(4, "own 0"), told(4, "@7 own 0 ()"), asks(4, "quote 0"),
                 told(4, "@8 quote 0 300 open"), asks(4, "quote 26"),
                 told(4, "@1 quote 0 0 open")]
        self.check(self.make(journal(*lines, tick=4), live=True), [], [],
                   ["tick"] * 4 + ["3 own 21", "tick", "3 own 0"])
        recovery = self.make(journal(*lines[:-2], tick=6))
        self.assertEqual(self.lines(recovery)[-2:], ["4 own 0", "4 quote 0"])

    def test_the_lobbys_clock_may_be_one_tick_behind_by_its_ticks_or_its_times(self) -> None:
        for tick, time, most in ((0, 0, 1), (2, 0, 3), (0, 399, 4), (2, 850, 9), (54, 0, 54)):
            for at in (most, most + 1):
                reader = journal(asks(1, "own 0"), told(1, f"@{at} own 0 ()", time), tick=tick)
                if at > 54:
                    continue
                self.assertEqual(asked(self.make(reader, live=True).script().calls),
                                 ["1 own 0"] if at == most else [])

    def test_replies_that_are_not_as_they_were_told(self) -> None:
        reader = journal(asks(1, "own 20"), told(1, "@0 own 3 ()"), asks(2, "cash"),
                         told(2, "@0 cash -70"), asks(2, "own 20"), told(2, "@1 own 0 ()"))
        log, faults = self.make(reader).log()
        self.assertEqual(faults, ["1 own 20: replied @0 own 3 (), and now @0 own 0 ()"])
        self.assertEqual(called(log)["auction 20 3"], ["1 own", "2 own", "8 close"])

    def test_requests_without_a_reply_are_not_compared(self) -> None:
        calls = [replace(call(20, 0), reply=None), call(20, 1), call(20, 2)]
        replies = ["1 @0 own 5 ()", "1 @1 own 0 ()", "1 @2 own 4 ()"]
        self.assertEqual(differences(Script("", calls), replies), [(calls[2], "@2 own 4 ()")])


class Playing(FolderCase):
    """The program that a player runs."""

    def play(self, body: str, script: str, longest: float = 60.0) -> Tuple[List[str], str]:
        with mock.patch.dict(os.environ, {"TAC": fake_program(self.folder, body)}):
            return Player(self.folder, longest).play("the game\n", script)

    def test_reply_lines_come_before_the_log(self) -> None:
        body = '[ "$1" = play ] && cat "$3" && echo taclog 1 && cat "$2"'
        self.assertEqual(self.play(body, "0 one\n1 two\n"),
                         (["0 one", "1 two"], "taclog 1\nthe game\n"))
        self.assertEqual(self.play(body, ""), ([], "taclog 1\nthe game\n"))

    def test_bytes_of_a_script_are_those_of_the_journal(self) -> None:
        self.assertEqual(self.play('od -An -tx1 "$3"; echo taclog 1', "0 \xfc\n"),
                         ([" 30 20 fc 0a"], "taclog 1\n"))

    def test_a_refusal_and_one_that_takes_too_long(self) -> None:
        for body, fault in (("echo text 1 2; exit 8", "exit status 8 .*text 1 2"),
                            ("exec sleep 60", "tac play took longer than 0.5 seconds")):
            with self.assertRaisesRegex(RecoveryError, fault):
                self.play(body, "", 0.5 if "sleep" in body else 60.0)


class Telling(FolderCase):
    """What the command tells, and its exit status."""

    def setUp(self) -> None:
        super().setUp()
        self.log = self.folder / "output"

    def scores(self) -> List[int]:
        return [row.score for row in read_log(self.log.read_bytes()).scores]

    def run_it(self, lines: Sequence[str], *words: object) -> Tuple[int, List[str]]:
        """Runs the command on a journal, and gives its exit status and the lines that it tells."""
        (self.folder / "journal").write_text("".join(line + "\n" for line in lines))
        command = "geesefuton.hosting.recover_command"
        with mock.patch(f"{command}.Player", lambda folder, _: CountingPlayer()), \
                mock.patch(f"{command}.Output",
                           lambda target: Output(self.log if target == 1 else target)):
            status, text = refusal("hosting.recover_command", self.folder / "journal", *words)
        return status, text.splitlines()

    HEAD = [*HEADED, '{"tick":7,"t":700}',
            asks(0, "own 20"), told(0, "@0 own 0 ()", 701), asks(0, "quote 20"),
            told(0, "@1 quote 0 0 open", 702), asks(0, "cash"), told(0, "@0 cash 0", 703),
            asks(0, "hm"), told(0, "no syntax", 704)]

    def test_how_the_game_ended(self) -> None:
        more = "the scores assume that nobody asks anything more"
        for lines, due in (
                (self.HEAD, f"the journal ends after tick 7 of 54; 2 calls; {more}"),
                ([*self.HEAD, '{"over":0,"t":800}'], "the game was played to its end; 2 calls"),
                ([*self.HEAD, '{"over":6,"t":800}'], "the game was played to its end; 2 calls"),
                ([*self.HEAD, '{"over":137,"t":800}'],
                 f"the server failed (137) after tick 7 of 54; 2 calls; {more}"),
                (LINES[:4], "the game had not begun")):
            self.assertEqual(self.run_it(lines), (0, [due]))
            self.assertEqual(read_log(self.log.read_bytes()).kind, "play")

    def test_requests_without_a_reply(self) -> None:
        lines = [*self.HEAD, asks(1, "bid 21 ((1 5))"), asks(2, "quote 21"),
                 told(2, "@1 quote 5 0 open"), asks(3, "bid 23 ((1 5))"),
                 told(3, "@0 taken 0 0"), asks(3, "bid 22 ((1 5))"), asks(4, "own 22")]
        first, third, fourth = GAME.words[1], GAME.words[3], GAME.words[4]
        status, text = self.run_it(lines)
        self.assertEqual((status, text[1:]), (0, [
            f"  without a reply, in the log: {first}: bid 21 ((1 5))",
            f"  without a reply, left out: {third}: bid 22 ((1 5))",
            f"  without a reply, left out: {fourth}: own 22",
            "  the journal does not show whether those left out were made; with them (--pending) "
            f"scores change: {third} -1"]))
        self.assertEqual(self.scores(), [0, -1, 0, -1, 0, 0, 0, 0])
        status, text = self.run_it(lines, "--pending")
        self.assertEqual((status, [line.split(": ")[0] for line in text[1:]]),
                         (0, ["  without a reply, in the log"] * 3))
        self.assertEqual(self.scores(), [0, -1, 0, -2, 0, 0, 0, 0])
        status, text = self.run_it([*self.HEAD, asks(4, "own 22")])
        self.assertTrue(text[-1].endswith("with them (--pending) no score changes"), text)
        rows = [[mock.Mock(score=score) for score in scores]
                for scores in ([5] * 8, [5, 5, 5, 20, 5, 5, 5, -12])]
        with mock.patch("geesefuton.hosting.recover_command.read_scores", side_effect=rows):
            _, text = self.run_it([*self.HEAD, asks(4, "own 22")])
        self.assertTrue(text[-1].endswith(f"change: {GAME.words[3]} +15, {GAME.words[7]} -17"),
                        text)

    def test_a_difference_is_told_and_the_log_is_written(self) -> None:
        lines = [*self.HEAD, asks(1, "own 21"), told(1, "@0 own 4 ()")]
        status, text = self.run_it(lines)
        self.assertEqual((status, text[1:]),
                         (1, ["! 1 own 21: replied @0 own 4 (), and now @0 own 0 ()"]))
        self.assertEqual(read_log(self.log.read_bytes()).kind, "play")

    def test_a_journal_of_no_game_leaves_no_log(self) -> None:
        lines = [*self.HEAD, asks(1, "own 20"), told(1, "@0 own 0 ()")]
        status, text = self.run_it(lines)
        self.assertEqual((status, text), (
            1, [f"recover: {self.folder / 'journal'}: two replies have position 0 for good 20"]))
        status, text = self.run_it(["hey"])
        self.assertEqual((status, len(text), "line 1 is not a journal line" in text[0]),
                         (1, 1, True))
        none = self.folder / "none"
        self.assertEqual(refusal("hosting.recover_command", none),
                         (1, f"recover: {none}: No such file or directory\n"))
        self.assertFalse(self.log.exists())

    def test_other_outputs(self) -> None:
        script, game = self.folder / "my.script", self.folder / "my.game"
        status, _ = self.run_it(self.HEAD, "--script", script, "--game", game)
        self.assertEqual((status, game.read_text()), (0, GAME.text()))
        self.assertEqual(script.read_text(),
                         "tick\n" * 7 + "0 own 20\n0 quote 20\n0 cash\n")
        status, text = self.run_it(self.HEAD, "--script", self.folder / "no" / "where")
        self.assertEqual((status, text[-1]), (
            1, f"recover: {self.folder / 'no' / 'where'}: No such file or directory"))
        self.assertEqual(read_log(self.log.read_bytes()).kind, "play")
        self.log.unlink()
        self.log.mkdir()
        status, text = self.run_it(self.HEAD)
        self.assertEqual((status, text[-1]), (1, f"recover: {self.log}: Is a directory"))


@needs_program
class WithTheProgram(PlayedCase):
    def test_a_whole_game(self) -> None:
        log, faults = Recovery(read_journal(DATA / "lobby.journal"), self.player).log()
        self.assertEqual(faults, [])
        self.assertEqual(parts_of(log), parts_of((DATA / "lobby.log").read_text()))
        self.assertEqual(self.audit(log), "sound")

    def test_cut_games(self) -> None:
        dice = random.Random(4)
        made = 0
        for _ in range(4):
            part = cut_lines(dice, LINES)
            recovery = Recovery(of_text(part), self.player)
            log, faults = recovery.log()
            self.assertEqual((self.audit(log), faults), ("sound", []))
            made += len(recovery.made)
            self.assertEqual(Recovery(of_text(part), self.player, pending=True).left, [])
        self.assertGreater(made, 0)

    def recover(self, *words: object, **how: Any) -> "subprocess.CompletedProcess[str]":
        return subprocess.run(
            [*COMMAND, "recover", *map(str, words)], text=True, check=False,
            **{"stdout": subprocess.PIPE, **how}, stderr=subprocess.PIPE, cwd=self.folder)

    def test_the_command(self) -> None:
        (self.folder / "cut").write_text("\n".join(LINES[:150]) + "\n")
        done = self.recover("cut", "--script", "my.script", "--game", "other.game")
        self.assertEqual(done.returncode, 0)
        self.assertIn("nobody asks anything more", done.stderr)
        played = program.play(self.folder / "other.game", self.folder / "my.script")
        self.assertEqual(played[played.index("taclog 1"):], done.stdout)
        with open("/dev/full", "w", encoding="ascii") as full:
            done = self.recover("cut", stdout=full)
        self.assertEqual((done.returncode, "No space left" in done.stderr), (1, True))
