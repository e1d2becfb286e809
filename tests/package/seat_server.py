"""A stand-in for a game's server in tests of seats: one agent's auctions, over sockets."""

import contextlib
import json
import socket
import threading
import urllib.request
from typing import Any, Dict, List

from geesefuton.records.games import GOODS

WELCOME = ["welcome 3", "endow 3 0 1 1 2 2 0 2 2 2 0 1 1",
           *(f"client 3 {number} {1 + number % 4} 5 {50 + number} 1 2 {number}"
             for number in range(8))]

HANG = "hang"


def ask(address: str, **given: Any) -> Dict[str, Any]:
    """What a seat's page is answered."""
    request = urllib.request.Request(address, json.dumps(given).encode(),
                                     {"Content-Type": "application/json"})
    with urllib.request.urlopen(request, timeout=60.0) as answer:
        told: Dict[str, Any] = json.loads(answer.read())
        return told


class SeatServer:
    """Answers the lines of an agent, by no rules: a bid stands, and is admitted unless `refusals`
    says otherwise.

    Attributes:
        quotes: For each auction its bid and its ask.
        closed: The auctions that are closed.
        units: What the agent has of each good.
        standing: The points that stand, by auction.
        refusals: Replies to the next lines that begin so; "" ends the link, and `HANG` is silence
            until the agent ends it.
        heard: What was asked.
    """

    def __init__(self) -> None:
        self.quotes = [[0, 300] if good < 8 else [0, 0] for good in GOODS]
        self.closed: List[int] = []
        self.units = [0] * 28
        self.standing: Dict[int, str] = {}
        self.refusals: Dict[str, str] = {}
        self.cash = 0
        self.heard: List[str] = []
        self._counts = [0] * 28
        self._listener = socket.create_server(("127.0.0.1", 0))
        self.port: int = self._listener.getsockname()[1]
        threading.Thread(target=self._accept, daemon=True).start()

    def _accept(self) -> None:
        while True:
            try:
                stream, _ = self._listener.accept()
            except OSError:
                return
            threading.Thread(target=self._serve, args=(stream,), daemon=True).start()

    def _serve(self, stream: socket.socket) -> None:
        with contextlib.suppress(OSError), stream, stream.makefile("rwb") as lines:
            for line in lines:
                text = line.decode().rstrip("\n")
                self.heard.append(text)
                answer = self.answer(text)
                if answer == HANG:
                    lines.read()
                if answer in ("", HANG):
                    return
                lines.write(f"{answer}\n".encode())
                lines.flush()

    def answer(self, line: str) -> str:
        """The reply to a line."""
        for begin in list(self.refusals):
            if line.startswith(begin):
                return self.refusals.pop(begin)
        words = line.split(" ", 2)
        if words[0] == "hello":
            return "\n".join(WELCOME)
        if words[0] == "cash":
            return f"@0 cash {self.cash}"
        if words[0] == "quit":
            return "bye"
        good = int(words[1])
        if words[0] == "quote":
            bid, ask = self.quotes[good]
            state = "closed" if good in self.closed else "open"
            return f"@{self._counts[good]} quote {bid} {ask} {state}"
        at = self._counts[good]
        self._counts[good] += 1
        if words[0] == "own":
            return f"@{at} own {self.units[good]} {self.standing.get(good, '()')}"
        if words[0] == "withdraw":
            self.standing.pop(good, None)
            return f"@{at} done"
        self.standing[good] = words[2]
        return f"@{at} taken 0 0"

    def call(self, good: int) -> None:
        """Somebody else calls the auction."""
        self._counts[good] += 1

    def close(self) -> None:
        """Takes no more links."""
        self._listener.close()
