#!/usr/bin/env python3
"""Measures the rate of `tac serve` with eight agents that keep many requests in flight, beside a
bare echo in C under the same agents.

    bench/serve_beside_echo.py crates/tacd/out/tacd

An agent sends 42,000 requests: a quote, a holding and a bid in turn, in all 28 auctions, at most
--depth of them without a reply. The clock ticks meanwhile. The rounds alternate; for each the
output has the requests a second of all agents, the median and the 99th percentile of the time from
a line to its reply in microseconds, the server's processor time in microseconds per request, and
its peak resident memory.
"""

import os
import subprocess
import sys
import tempfile
import time
from pathlib import Path
from typing import Sequence, Tuple

from running import Parser, ProgramError, command, file_of, need, run, whole

from geesefuton.processes import free_port

HERE = Path(__file__).resolve().parent
LINES = 42000  # of each agent: 1,000 calls in each auction, of at most 1,024


def listens(port: int) -> bool:
    """Whether a program listens on a port."""
    tables = [Path(f"/proc/net/{name}") for name in ("tcp", "tcp6")]
    lines = [line.split() for table in tables if table.exists()
             for line in table.read_text().splitlines()]
    return any(words[3] == "0A" and words[1].endswith(f":{port:04X}") for words in lines)


def measure(server: Sequence[object], client: Path, port: int, greeted: int,
            depth: int) -> Tuple[int, int, int, float, float]:
    """The agents' figures for a server, its processor time in seconds and its memory in megabytes.

    Raises:
        ProgramError: The server ended with an error.
    """
    with tempfile.TemporaryFile() as out:
        process = subprocess.Popen([str(word) for word in server], stdout=out)
        try:
            while not listens(port):
                if process.poll() is not None:
                    raise ProgramError(f"the server ended with {process.returncode}")
                time.sleep(0.02)
            told = run([client, "ask", str(port), str(LINES), str(depth), str(greeted)]).text
            _, status, spent = os.wait4(process.pid, 0)
            process.returncode = os.waitstatus_to_exitcode(status)
        finally:
            if process.returncode is None:
                process.kill()
                process.wait()
        if process.returncode not in (0, 6):
            raise ProgramError(f"the server ended with {process.returncode}")
    rate, median, late = map(int, told.split())
    return rate, median, late, spent.ru_utime + spent.ru_stime, spent.ru_maxrss / 1000


def main() -> int:
    parser = Parser("serve_beside_echo", __doc__)
    parser.add_argument("tac", help="the file of tac")
    parser.add_argument("--rounds", type=whole(1), default=5,
                        help="how often each server is measured (default: 5)")
    parser.add_argument("--depth", type=whole(1), default=64,
                        help="the most requests of an agent in flight (default: 64)")
    given = parser.parse_args()
    tac = file_of(given.tac)
    need("gcc")
    with tempfile.TemporaryDirectory() as place:
        client, game = Path(place) / "plain_lines", Path(place) / "game"
        run(["gcc", "-O2", "-pthread", HERE / "plain_lines.c", "-o", client])
        game.write_text(run([tac, "make", "42"]).text)
        for _ in range(given.rounds):
            for name in ("tac serve", "echo"):
                port, is_tac = free_port(), name == "tac serve"
                server = [tac, "serve", game, port, 20] if is_tac else [client, "echo", port]
                rate, median, late, spent, memory = measure(
                    server, client, port, 10 if is_tac else 1, given.depth)
                print(f"{name:10} {rate:9,} a second  {median:5} and {late:5} us  "
                      f"{spent / (8 * LINES) * 1e6:5.1f} us a request  {memory:6.1f} MB",
                      flush=True)
    return 0


if __name__ == "__main__":
    sys.exit(command("serve_beside_echo", main))
