#!/usr/bin/env python3
"""Measures what the lobby adds to a request and its reply, and what it costs.

    taskset -c 2 bench/lobby_cost.py --hosts-on 3
    bench/lobby_cost.py --by-hand

One agent asks a quote every millisecond, or eight agents every two, in lock step with their
replies: of the server itself, through the lobby with its journal, with the page, and with 50
viewers of the page and one that hangs. The ways are taken in turn. It writes for each the
microseconds of a request (median, 90th and 99th of 100), and the microseconds of a processor that
the lobby spent for a request since the game began; at the end the size of the last journal. With
--hosts-on the server, the lobby and its page have a processor of their own, which needs Linux.

With --by-hand it measures two games of a tick each 2 seconds instead: one whose eight seats are
played by hand, each with a page that is open and bids now and then, and one of eight agents that
ask as often as a seat by hand does. For each it writes the requests, and what the lobby spent.
"""

import contextlib
import json
import os
import socket
import statistics
import subprocess
import sys
import threading
import time
import urllib.request
from pathlib import Path
from typing import Any, Dict, List, NamedTuple

TOP = Path(__file__).resolve().parent.parent
sys.path.insert(0, str(TOP / "python"))
COMMAND = [sys.executable, str(TOP / "python" / "geesefuton")]

from geesefuton import program
from geesefuton.arguments import Parser, whole
from geesefuton.processes import Children, command, free_port

PACE = 2000  # milliseconds; a round ends long before the game does
WAYS = ["server alone", "lobby", "lobby and page", "and 50 viewers"]
PLAYED = 30.0  # seconds of a game by hand that are measured
OFTEN = 28 / 0.5  # requests a second of a seat by hand, which looks at all quotes 4 times a tick
PROBE = """
import json, socket, sys, time
port, word, count, gap = int(sys.argv[1]), sys.argv[2], int(sys.argv[3]), float(sys.argv[4])
for _ in range(200):
    try:
        link = socket.create_connection(("127.0.0.1", port))
        break
    except OSError:
        time.sleep(0.05)
link.setsockopt(socket.IPPROTO_TCP, socket.TCP_NODELAY, 1)
lines = link.makefile("rb")
link.sendall(f"hello {word}\\n".encode())
for _ in range(10):
    lines.readline()
time.sleep(0.3)
times = []
for number in range(count):
    line = b"own 20\\n" if number % 8 == 0 and number < 7000 else b"quote 20\\n"
    start = time.perf_counter()
    link.sendall(line)
    lines.readline()
    times.append(time.perf_counter() - start)
    time.sleep(gap)
link.sendall(b"quit\\n")
lines.readline()
print(json.dumps(times))
"""


class Meter(threading.Thread):
    """Notes the processor time of a process, in seconds, until it has ended."""

    def __init__(self, number: int) -> None:
        super().__init__(daemon=True)
        self.number, self.spent, self.before = number, 0.0, 0.0

    def begin(self, journal: Path) -> None:
        """Counts from the time at which a game begins, by its journal."""
        while not journal.exists() or '"tick":0' not in journal.read_text():
            time.sleep(0.02)
        self.before = self.spent

    def run(self) -> None:
        with contextlib.suppress(OSError, IndexError):
            while True:
                words = Path(f"/proc/{self.number}/stat").read_text().rsplit(")", 1)[1].split()
                spent = (int(words[11]) + int(words[12])) / os.sysconf("SC_CLK_TCK")
                self.spent = max(self.spent, spent)
                time.sleep(0.05)


def view(port: int, is_reading: bool) -> None:
    """A viewer of the page, or one that hangs."""
    for _ in range(100):
        with contextlib.suppress(OSError):
            with socket.create_connection(("127.0.0.1", port)) as link:
                link.sendall(b"GET /events HTTP/1.1\r\nHost: x\r\n\r\n")
                while is_reading and link.recv(65536):
                    pass
                time.sleep(0 if is_reading else 60)
                return
        time.sleep(0.1)


def measure(way: str, agents: int, count: int, folder: Path,
            before: List[str]) -> "Dict[str, float]":
    """One round: microseconds of requests, and of the lobby's processor for one.

    Args:
        way: One of `WAYS`.
        agents: How many agents ask.
        count: How many requests each of them makes.
        folder: A folder for files.
        before: Words that stand before those of the lobby or of the server.
    """
    game, port, page = folder / "game", free_port(), free_port()
    game.write_text(program.make(42))
    journal = folder / f"{time.monotonic_ns()}.journal"
    with Children() as children:
        if way == WAYS[0]:
            words = program.served_words(game, port, PACE)
        else:
            words = [*COMMAND, "lobby", str(game), str(port), str(PACE), "--start", "2", "--after",
                     "0", "--journal", str(journal)]
            words += ["--page", str(page)] if way != WAYS[1] else []
        host = children.start([*before, *words], stdin=subprocess.DEVNULL,
                              stdout=subprocess.DEVNULL, stderr=subprocess.DEVNULL)
        meter = Meter(host.pid)
        meter.start()
        if way == WAYS[3]:
            for number in range(51):
                threading.Thread(target=view, args=(page, number > 0), daemon=True).start()
        probes = [children.start(
            [sys.executable, "-c", PROBE, str(port), f"seat{number}", str(count),
             str(0.001 if agents == 1 else 0.002)], stdout=subprocess.PIPE)
            for number in range(agents)]
        others: List[socket.socket] = []
        if way == WAYS[0]:
            others = [leave(port, f"seat{number}") for number in range(agents, 8)]
        if way != WAYS[0]:
            meter.begin(journal)
        times = sorted(number for probe in probes for number in json.loads(probe.communicate()[0]))
        for other in others:
            other.close()
        part = 1e6 / len(times)
        return {"median": statistics.median(times) * 1e6, "p90": times[len(times) * 9 // 10] * 1e6,
                "p99": times[len(times) * 99 // 100] * 1e6,
                "processor": (meter.spent - meter.before) * part if way != WAYS[0] else 0,
                "journal": journal.stat().st_size if journal.exists() else 0}


def leave(port: int, word: str) -> socket.socket:
    """Takes a seat at the server, and leaves it."""
    while True:
        try:
            link = socket.create_connection(("127.0.0.1", port))
            break
        except OSError:
            time.sleep(0.05)
    link.sendall(f"hello {word}\n".encode())
    link.shutdown(socket.SHUT_WR)
    return link


class Spent(NamedTuple):
    """What was asked in a part of a game, and the processor seconds that its lobby spent then."""

    requests: int
    processor: float


def ask(address: str, what: str, **given: Any) -> Dict[str, Any]:
    """What the page of a seat is answered."""
    request = urllib.request.Request(address + what, json.dumps(given).encode(),
                                     {"Content-Type": "application/json"})
    with urllib.request.urlopen(request, timeout=60) as response:
        told: Dict[str, Any] = json.load(response)
        return told


def play_by_hand(place: str, word: str) -> None:
    """Somebody who joins by a seat's word, has its page open, and bids now and then, until it is
    gone."""
    address = ""
    while not address:
        with contextlib.suppress(OSError), urllib.request.urlopen(
                f"{place}play", word.encode(), timeout=20) as response:
            address = f"{place}{response.read().decode()}/"
        time.sleep(0.1)
    with contextlib.suppress(OSError, ValueError):
        page, version, bids = ask(address, "open", page="")["page"], -1, 0
        while True:
            state = ask(address, "state", page=page, after=version)
            version = state["version"]
            if state["phase"] == "running" and state["tick"] > bids:
                bids = state["tick"] + 1
                ask(address, "bid", page=page, good=bids % 8, points=[[1, 50]])


def spent_in_a_game(is_by_hand: bool, folder: Path, before: List[str]) -> Spent:
    """Measures a part of a game whose seats are played by hand, or by agents."""
    game, port, page = folder / "game", free_port(), free_port()
    game.write_text(program.make(42))
    journal = folder / f"{time.monotonic_ns()}.journal"
    with Children() as children:
        words = [*COMMAND, "lobby", str(game), str(port), str(PACE), "--journal", str(journal),
                 *["--page", str(page)] * is_by_hand]
        host = children.start([*before, *words], stdin=subprocess.DEVNULL,
                              stdout=subprocess.DEVNULL, stderr=subprocess.DEVNULL)
        for number in range(8 if is_by_hand else 0):
            threading.Thread(target=play_by_hand, daemon=True, args=(
                f"http://127.0.0.1:{page}/", f"seat{number}")).start()
        for number in range(0 if is_by_hand else 8):
            children.start([sys.executable, "-c", PROBE, str(port), f"seat{number}", "1000000",
                            str(1 / OFTEN)], stdout=subprocess.DEVNULL, stderr=subprocess.DEVNULL)
        meter = Meter(host.pid)
        meter.start()
        meter.begin(journal)
        first = journal.read_bytes().count(b'"q"')
        time.sleep(PLAYED)
        return Spent(journal.read_bytes().count(b'"q"') - first, meter.spent - meter.before)


def measure_by_hand(folder: Path, before: List[str]) -> None:
    """Writes what the lobby spends in a game by hand, and in one of agents."""
    for is_by_hand in (True, False):
        requests, processor = spent_in_a_game(is_by_hand, folder, before)
        print(f"{'eight seats by hand' if is_by_hand else 'eight agents'}: {requests} requests in "
              f"{PLAYED:g} s, {1e6 * processor / max(1, requests):.0f} microseconds of the lobby's "
              f"processor for each, {100 * processor / PLAYED:.1f} % of a processor", flush=True)


def main() -> int:
    parser = Parser("lobby_cost", __doc__)
    parser.add_argument("--rounds", type=whole(1), default=3, metavar="N",
                        help="rounds of each way (default: 3)")
    parser.add_argument("--requests", type=whole(1, 20000), default=5000, metavar="N",
                        help="requests of each agent a round (default: 5000)")
    parser.add_argument("--hosts-on", type=whole(0, 4095), metavar="PROCESSOR",
                        help="run server, lobby and page on this processor (default: any)")
    parser.add_argument("--by-hand", action="store_true",
                        help="measure a game by hand, and one of agents that ask as often")
    given = parser.parse_args()
    before = [] if given.hosts_on is None else ["taskset", "-c", str(given.hosts_on)]
    if given.by_hand:
        with Children() as children:
            measure_by_hand(children.folder("lobby_cost"), before)
        return 0
    size = 0.0
    with Children() as children:
        folder = children.folder("lobby_cost")
        for agents in (1, 8):
            rows: Dict[str, List[Dict[str, float]]] = {way: [] for way in WAYS}
            for _ in range(given.rounds):
                for way in WAYS:
                    rows[way].append(measure(way, agents, given.requests, folder, before))
                    size = rows[way][-1]["journal"] or size
            for way in WAYS:
                line = [f"{key} {min(row[key] for row in rows[way]):.0f} to "
                        f"{max(row[key] for row in rows[way]):.0f}"
                        for key in ("median", "p90", "p99", "processor")]
                print(f"{agents} agents, {way}: {', '.join(line)}", flush=True)
    print(f"the last journal: {size:,.0f} bytes for {8 * given.requests:,} requests")
    return 0


if __name__ == "__main__":
    sys.exit(command("lobby_cost", main))
