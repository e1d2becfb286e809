"""Refuses each growth of memory of each command in turn, and checks how the run ends.

Each growth is refused in a run of its own: it alone, and then it with all that come after it. A run
has to end as it does with memory, or with status 7 and a text that docs/FORMATS.md allows: the line
`memory` alone, before any link was heard; or, if a game was played, all of its text but the sheet,
and then that line. A served game that is played has to be sound whatever was refused, and each link
has to be sent all its lines; in JSON `{"no":"memory"}` may stand for a reply. If memory for a
thread is refused, the clock and the sessions run one after the other, so a bid may find its auction
closed.

Two games are served over links in memory, by tests of `tacd` that tell how their run of `tac`
ended; of their growths only those of that run are refused. If the program of these tests is not
there, which `rt test` in crates/tacd leaves, they are skipped with a line.

    python3 -m tests.program.refused_memory [MOST]

If a command has more than MOST growths (2000), evenly spaced ones are tried; with all it takes some
minutes. It ends with 0 if each run ended as it has to, and with 1 if one did not. It needs a C
compiler.
"""

import os
import re
import resource
import shutil
import subprocess
import sys
import tempfile
from concurrent.futures import ThreadPoolExecutor
from pathlib import Path
from typing import Dict, Iterator, List, NamedTuple, Optional, Sequence

from geesefuton.arguments import Parser, whole
from geesefuton.processes import command, free_port
from geesefuton.program import ProgramError, audit, find
from tests.support.judging import answer
from tests.support.trying import MOST, TOP, lines_in_order

EXAMPLES = TOP / "examples"
GAME, ACCOUNT = str(EXAMPLES / "first.game"), str(EXAMPLES / "one_seat.account")
PACE = "4"  # milliseconds from tick to tick, so that all agents ask before the auctions close
NO_MEMORY = '{"no":"memory"}'
TESTS = TOP / "crates" / "tacd" / "out" / "tacd_tests"
MARK = "76543"  # bytes of the two growths between which a test has its run of `tac`
TELL = "1"  # the word of one byte for which a test tells how that run ended


def text_of(*texts: str) -> str:
    return "".join(f"{text}\n" for text in texts)


# A whole game: agent 0 takes two seats, a room and a ticket, agent 1 sells two tickets that it does
# not have, and agent 2 keeps one. The replies and scores are those of the rules.
WHOLE_GAME = [("0 bid 0 ((1 300))", "0 @0 taken 1 0"), ("0 bid 4 ((1 300))", "0 @0 taken 1 0"),
              ("0 bid 8 ((1 50))", "0 @0 taken 0 0"), ("1 bid 24 ((-2 60))", "1 @0 taken 0 0"),
              ("0 bid 24 ((1 70))", "0 @1 taken 1 0"), ("2 bid 24 ((1 70))", "2 @2 taken 1 0"),
              ("1 own 24", "1 @3 own -2 ()"), ("0 cash", "0 @4 cash -660"),
              ("0 quote 8", "0 @1 quote 0 0 open")]
WHOLE_DUE = [
    text_of(*(reply for _, reply in WHOLE_GAME), "taclog 1", "play", "auction 0 55"),
    "score 0 1100 -660 0 440", "score 1 0 120 2 -280", "score 2 0 -60 0 -60",
    *(f"score {agent} 0 0 0 0" for agent in range(3, 8))]

# The most links that are heard before a game: one takes a seat and leaves, the rest are refused.
MANY_LINKS = ["hello seat0\nquit\n", "hello nobody\n", "hello seat0\n"] + ["hi\n"] * 61
SEATED = ["taclog 1", "serve", "link 0 seated 0", "link 1 wrongword", "link 2 taken"]
ENDED = ["end 0 quit", "missed 0", "auction 0 54"]
MANY_HEAD = text_of(*SEATED, *(f"link {number} syntax" for number in range(3, 64)), *ENDED)

# Of the first test one link in memory is seated, and three are refused. Of the second eight are
# seated: agent 0 asks once agent 1 has its reply, and agent 1 leaves once agent 0 has its own. If
# the two come one after the other, one of them gives up, and the log tells that its read failed.
FOUR_HEAD = text_of(*SEATED, "link 3 syntax", *ENDED)
EIGHT_HEAD = text_of("taclog 1", "serve", *(f"link {seat} seated {seat}" for seat in range(8)),
                     *(f"end {seat} quit" for seat in range(8)), "missed 0")
OWNS = [r"@\d+ own 0 \(\)", "bye"]


def plain_game() -> str:
    """A game whose flights stay at 300 dollars, whose agents have no tickets, and whose clients all
    want days 1 to 2, for 100 dollars more in the better hotel and 100 for a museum."""
    return text_of("tac 1", "words " + " ".join(f"seat{seat}" for seat in range(8)),
                   *(f"flight {good} 300" + " 10" * 54 for good in range(8)),
                   "close 8 9 10 11 12 13 14 15",
                   *(f"endow {agent}" + " 0" * 12 for agent in range(8)),
                   *(f"client {number // 8} {number % 8} 1 2 100 0 0 100" for number in range(64)),
                   "end")


class Ran(NamedTuple):
    """What a run left: its status, its output, and what each link was sent."""

    status: int
    text: bytes
    sent: List[bytes]


class Case(NamedTuple):
    """A command whose growths are refused.

    Attributes:
        name: How it is called.
        words: The words of the command; PORT stands for a free port.
        game: The game that is played; None if none is.
        links: What each link of a served game sends, in the order in which they come.
        heard: The forms of the replies that each agent of such a game gets after the ten lines of
            its welcome. None if there is one log, byte for byte.
        due: What the text is known to have by the rules.
        tests: The program of tests whose words these are; None for a command of `tac`. The test
            has the links, and tells what they were sent.
    """

    name: str
    words: List[str]
    game: Optional[str] = None
    links: Sequence[str] = ()
    heard: Optional[Sequence[Sequence[str]]] = None
    due: Sequence[str] = ()
    tests: Optional[str] = None


def cases(program: str, tests: Optional[str], folder: Path) -> Iterator[Case]:
    """The commands, and tests if there is a program of them, with their files in a folder."""
    plain, script, log = (folder / name for name in ("plain.game", "whole_game.script", "log"))
    plain.write_text(plain_game())
    script.write_text(text_of(*(line for line, _ in WHOLE_GAME)))
    played = subprocess.run([program, "play", plain, script], stdout=subprocess.PIPE, check=False)
    log.write_bytes(played.stdout[played.stdout.find(b"taclog 1\n"):])
    for words in (["hotel", str(EXAMPLES / "one_hotel.script")], ["show", GAME], ["upgrade", GAME],
                  ["make", "42"], ["trial", "7", "500"], ["solve", ACCOUNT], ["worth", ACCOUNT]):
        yield Case(words[0], words)
    yield Case("audit", ["audit", str(plain), str(log)], due=["sound\n"])
    yield Case("table", ["table", *[str(plain), str(log)] * 2], due=["table 2\n"])
    yield Case("play, three agents", ["play", GAME, str(EXAMPLES / "three_agents.script")], GAME)
    for name in ("play", "step"):
        yield Case(f"{name}, a whole game", [name, str(plain), str(script)], str(plain),
                   due=WHOLE_DUE)
    yield Case("serve, 64 links", ["serve", str(plain), "PORT", PACE], str(plain), MANY_LINKS,
               due=[MANY_HEAD])
    asked = [f"hello seat{seat}\nbid {16 + seat} ((1 70))\ncash\nquit\n" for seat in range(8)]
    yield Case("serve, eight agents", ["serve", GAME, "PORT", PACE], GAME, asked,
               [[r"@\d+ (taken 0 0|no closed)", r"@\d+ cash 0", "bye"]] * 8)
    asked = [f'hello seat{seat}\n{{"do":"bid","auction":{seat},"points":[[1,400]]}}\n'
             '{"do":"cash"}\n{"do":"quit"}\n' for seat in range(8)]
    yield Case("serve, JSON", ["serve", str(plain), "PORT", PACE, "json"], str(plain), asked,
               [[r'{"at":\d+,("taken":\[1,0\]|"no":"closed")}', r'{"at":\d+,"cash":(0|-300)}',
                 '{"bye":true}']] * 8)
    if tests:
        yield Case("serve, four links in memory",
                   ["serve_tests::the_pace_is_set_before_the_first_wait", TELL], str(plain),
                   due=[FOUR_HEAD, "\nscore 7 0 0 0 0\n"], tests=tests)
        yield Case("serve, eight links in memory",
                   ["serve_tests::sessions_run_beside_one_another", TELL], str(plain),
                   heard=[OWNS, OWNS, *[["bye"]] * 6], due=[EIGHT_HEAD], tests=tests)


def told(output: bytes) -> Ran:
    """The run that a test told of, by its parts, each with a form feed behind it: its status and
    how many lines its links were sent; its text; and what each link that it gave back was sent."""
    numbers, text, *sent = output.split(b"\f")[:-1]
    status, *lines = map(int, numbers.split())
    return Ran(status, text, sent or [b"%d lines" % count for count in lines if count])


class Trial:
    """Runs a case with growths refused, and judges each run.

    Raises:
        ProgramError: The case does not end with memory as it is known to.
    """

    def __init__(self, program: str, shim: str, case: Case, folder: Path) -> None:
        self.program, self.case = program, case
        self.shim = {"LD_PRELOAD": shim, **({"MARK": MARK} if case.tests else {})}
        counted = folder / "counted"
        counted.unlink(missing_ok=True)
        self.usual = self.run({"COUNTED": str(counted)})
        self.growths = int.from_bytes(counted.read_bytes(), sys.byteorder)
        text = self.usual.text.decode("latin-1")
        if case.tests and not self.growths:
            raise ProgramError(f"{case.tests} is older than this check: build it by rt test")
        if self.usual.status or not all(part in text for part in case.due):
            raise ProgramError(f"{case.name}: status {self.usual.status} and {text[:200]!r}")
        if case.heard is not None and not self.is_whole(self.usual):
            raise ProgramError(f"{case.name}: its links were sent {self.usual.sent}")

    def run(self, more: Dict[str, str]) -> Ran:
        """A run with more variables; that of a test is the run that it tells of.

        Raises:
            ProgramError: It took too long.
        """
        port = free_port() if self.case.links else 0
        words = [word if word != "PORT" else str(port) for word in self.case.words]
        with lines_in_order(port, self.case.links) as sent:
            try:
                done = subprocess.run(
                    [self.case.tests or self.program, *words], timeout=MOST,
                    stdin=subprocess.DEVNULL, env={**os.environ, **self.shim, **more},
                    stdout=subprocess.PIPE, check=False,
                    stderr=subprocess.DEVNULL if self.case.tests else None)
            except subprocess.TimeoutExpired:
                raise ProgramError(f"{self.case.name}: longer than {MOST} seconds") from None
        if self.case.tests and b"\f" in done.stdout:
            return told(done.stdout)
        return Ran(done.returncode, done.stdout, sent)

    def is_right(self, ran: Ran) -> bool:
        """Whether a run ended as it has to, with memory or without."""
        if ran.status == 7 and ran.text == b"memory\n":
            return not any(ran.sent)
        if ran.status not in (0, 7) or not self.is_whole(ran):
            return False
        sheet = self.usual.text.partition(b"\nsheet\n")
        text = ran.text
        if ran.status == 7:
            first, last = text[:-len(b"memory\n")], text[-len(b"memory\n"):]
            if self.case.game is None or last != b"memory\n":
                return False
            text = first + b"".join(sheet[1:])[1:]
        if self.case.heard is None:
            return text == self.usual.text
        verdict = answer(lambda: audit(str(self.case.game), text))
        # Where a bid was not taken, the usual sheet is another game's.
        return verdict == "sound" or (ran.status == 7 and verdict.startswith("unsound score ")
                                      and not self.case.tests
                                      and not all(b"taken" in sent for sent in ran.sent))

    def is_whole(self, ran: Ran) -> bool:
        """Whether each link was sent all that is due."""
        heard = self.case.heard
        if heard is None:
            return ran.sent == self.usual.sent
        if len(ran.sent) != len(heard):
            return False
        for number, (sent, usual, forms) in enumerate(zip(ran.sent, self.usual.sent, heard)):
            lines, welcome = sent.decode("latin-1").split("\n"), usual.decode("latin-1").split("\n")
            replies, last = lines[10:-1], lines[-1]
            if self.case.tests and b"\nend %d readfault\n" % number in ran.text:
                forms = forms[:len(replies)]
            if lines[:10] != welcome[:10] or last or len(replies) != len(forms) or not all(
                    line == NO_MEMORY or re.fullmatch(form, line)
                    for form, line in zip(forms, replies)):
                return False
        return True

    def refuse(self, most: int, at_once: int, after: str) -> int:
        """Refuses growths in turn. Returns how many runs ended wrongly.

        Args:
            most: How many growths at most.
            at_once: How many runs at a time.
            after: The variable that says which growth is refused, alone or with all after it.
        """
        numbers = range(1, self.growths + 1, max(1, -(-self.growths // most)))
        counts: Dict[str, int] = {}
        wrong = 0
        with ThreadPoolExecutor(at_once) as pool:
            for number, ran in zip(numbers, pool.map(lambda one: self.run({after: str(one)}),
                                                     numbers)):
                how = f"status {ran.status}" + (", `memory` alone" if ran.text == b"memory\n"
                                                else ", without the sheet" * (ran.status == 7))
                counts[how] = counts.get(how, 0) + 1
                if not self.is_right(ran):
                    wrong += 1
                    print(f"{self.case.name}: {after} {number}: status {ran.status}, "
                          f"{len(ran.text)} bytes, at the end {ran.text[-40:]!r}; sent "
                          f"{[sent[-40:] for sent in ran.sent][:8]}")
        told = ", ".join(f"{count} {how}" for how, count in sorted(counts.items()))
        print(f"{self.case.name}, {WAYS[after]}: {len(numbers)} of {self.growths} growths refused: "
              f"{told}; {wrong} otherwise than they have to", flush=True)
        return wrong


WAYS = {"REFUSED": "one alone", "REFUSED_FROM": "and all after it"}


def main() -> int:
    parser = Parser("refused_memory", __doc__ or "")
    parser.add_argument("most", nargs="?", type=whole(1), default=2000,
                        help="how many growths of a command are refused (default: 2000)")
    parser.add_argument("--at-once", type=whole(1, 16), default=4, metavar="N",
                        help="how many runs at a time (default: 4)")
    parser.add_argument("--tests", type=Path, default=TESTS, metavar="FILE",
                        help="the test program of tacd (default: crates/tacd/out/tacd_tests)")
    parser.add_argument("--only", default="", metavar="PART",
                        help="run only commands and games whose names contain this")
    given = parser.parse_args()
    program = find()
    tests = str(given.tests.resolve()) if given.tests.is_file() else None
    compiler = shutil.which("cc") or shutil.which("gcc")
    if not compiler:
        print("left out: refused memory: there is no C compiler")
        return 0
    # A failed assertion of a test, as where memory was refused, ends it by a signal.
    resource.setrlimit(resource.RLIMIT_CORE, (0, 0))
    wrong = 0
    with tempfile.TemporaryDirectory() as place:
        folder = Path(place)
        shim, source = str(folder / "refuse.so"), Path(__file__).resolve().with_name("refuse.c")
        made = subprocess.run([compiler, "-shared", "-fPIC", "-O1", "-o", shim, source, "-ldl"],
                              check=False)
        if made.returncode:
            raise ProgramError(f"{compiler} did not compile {source.name}")
        for case in cases(program, tests, folder):
            if given.only in case.name:
                trial = Trial(program, shim, case, folder)
                for after in WAYS:
                    wrong += trial.refuse(given.most, given.at_once, after)
    if tests is None:
        print("left out: refused memory of links in memory: there is no program of tests of tacd")
    return 1 if wrong else 0


if __name__ == "__main__":
    sys.exit(command("refused_memory", main))
