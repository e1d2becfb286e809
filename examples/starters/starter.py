#!/usr/bin/env python3
"""An agent to start from, in a single file: it needs Python 3.9 or later, and nothing else.

    python3 starter.py [HOST PORT WORD] [--pause SECONDS] [--again]

On Windows `py starter.py`. It buys each client's preferred trip: the flights at once, and the rooms
50 dollars above the quote, again when the quote has reached its bid. Change `play`.

If its link is lost, it tries to reconnect for up to 150 seconds, and then `play` begins anew: so
`play` has to begin with `own`, or it buys everything twice.
"""

import argparse
import os
import re
import socket
import sys
import time

HOST = "localhost"  # the machine of the game
PORT = 7000
WORD = "seat0"  # your seat word, which is a password
AGAIN = False  # whether it asks for a seat in the next game too, as in a practice room

MOST_FOR_A_SEAT = 600  # dollars
MOST_FOR_A_ROOM = 300  # dollars
HOTELS = range(8, 16)  # Shoreline Shanties, nights 1 to 4, and then Tampa Towers


def plan(clients):
    """How many units of each good the clients' preferred trips need."""
    needs = {}
    for arrive, depart, premium, *_ in clients:
        first = 12 if premium > 100 else 8  # night 1 of the hotel that the premium pays for
        rooms = range(first + arrive - 1, first + depart - 1)
        for good in (arrive - 1, depart + 2, *rooms):  # flights in are 0 to 3, flights out 4 to 7
            needs[good] = needs.get(good, 0) + 1
    return dict(sorted(needs.items()))


def play(link, pause):
    """Plays a game to its end."""
    needs, standing = plan(link.clients), {}
    for good, units in needs.items():
        held, points = link.own(good)
        if good in HOTELS:
            standing[good] = min((price for _, price in points), default=0)
        elif units > held:
            link.bid(good, units - held, MOST_FOR_A_SEAT)
    while not link.quote(0)[1]:
        for good in standing:
            ask, is_closed = link.quote(good)
            price = min(ask + 50, MOST_FOR_A_ROOM)
            if not is_closed and standing[good] <= ask and standing[good] < price:
                link.bid(good, needs[good], price)  # it replaces the earlier bid there
                standing[good] = price
        time.sleep(pause)
    held = " ".join(f"{good}:{link.own(good)[0]}" for good in needs)
    print(f"agent {link.agent} holds {held}, cash {link.cash()}")


# From here on: the link, one reply line for each request line. All of it may stay as it is.
LIMIT = float(os.environ.get("AGENT_LIMIT", "10")) or float("inf")  # seconds that a reply may take
BACK = 150  # seconds for which a lost link is connected again
PATIENCE = 120  # seconds for which a server that does not listen is tried
TRY = 15  # seconds that one try to connect again may take
BETWEEN = 0.5  # seconds between two tries
KEEPALIVE = {"TCP_KEEPIDLE": 5, "TCP_KEEPINTVL": 3, "TCP_KEEPCNT": 3}  # where the system has them


class Lost(Exception):
    """The link ended, or a reply took too long."""


class Over(Exception):
    """The seat is not to be had any more in this game."""


class Hopeless(Exception):
    """There is no server, or it does not know the word."""


class Link:
    """A link that has its seat, in a game that has begun.

    Attributes:
        agent: The agent's number, 0 to 7.
        clients: For each of its eight clients the days of arrival and of departure, the premium for
            Tampa Towers, and the values of the three tickets.
    """

    def __init__(self, host, port, word, within):
        self._word, self._rest = word, b""
        self._stream = socket.create_connection((host, port), TRY)
        try:
            self._stream.setsockopt(socket.IPPROTO_TCP, socket.TCP_NODELAY, 1)
            self._stream.setsockopt(socket.SOL_SOCKET, socket.SO_KEEPALIVE, 1)
            for name, value in KEEPALIVE.items():
                if hasattr(socket, name):
                    self._stream.setsockopt(socket.IPPROTO_TCP, getattr(socket, name), value)
            first = self.ask(f"hello {word}", within)
            if not first.startswith("welcome "):
                raise (Lost if first == "refused taken" else Hopeless)(f"{word}: {first}")
            self.agent = int(first.split()[1])
            lines = [self._line(TRY).split() for _ in range(9)]  # the tickets, and the clients
            self.clients = [[int(number) for number in line[3:]] for line in lines[1:]]
        except BaseException:
            self._stream.close()
            raise

    def ask(self, line, within=LIMIT):
        """Sends a request line, and gives its reply line."""
        try:
            self._stream.sendall(line.encode("ascii") + b"\n")
        except OSError:
            pass  # then no reply comes either
        return self._line(within)

    def _line(self, within):
        deadline = time.monotonic() + within
        while b"\n" not in self._rest:
            self._stream.settimeout(min(1, LIMIT))  # in short steps, so that ctrl-C is heard
            try:
                piece = self._stream.recv(4096)
            except socket.timeout:
                if time.monotonic() < deadline:
                    continue
                raise Lost(f"{self._word}: no reply within {within:g} seconds") from None
            except OSError:
                piece = b""
            if not piece:
                raise Lost(f"{self._word}: the link was closed")
            self._rest += piece
        line, _, self._rest = self._rest.partition(b"\n")
        return line.decode("ascii", "replace")

    def bid(self, good, units, price):
        """Bids for units at a price or less each, below 0 to sell; it replaces the whole earlier
        bid there. Gives the reply line."""
        return self.ask(f"bid {good} (({units} {price}))")

    def own(self, good):
        """The units that the agent has, and what stands there: a list of units and prices."""
        words = self.ask(f"own {good}").split(" ", 3)
        numbers = [int(number) for number in re.findall("-?[0-9]+", words[3])]
        return int(words[2]), list(zip(numbers[::2], numbers[1::2]))

    def quote(self, good):
        """The price of a good, and whether its auction is closed."""
        words = self.ask(f"quote {good}").split()
        return int(words[3]), words[4] == "closed"

    def cash(self):
        """What the agent earned so far less what it paid, in dollars."""
        return int(self.ask("cash").split()[2])

    def quit(self):
        """Leaves the game."""
        self.ask("quit")
        self.close()

    def close(self):
        """Ends the link."""
        self._stream.close()


def seat(host, port, word, lost):
    """Takes the seat, and waits until the game begins; after a lost link, until it is back."""
    deadline, told = time.monotonic() + (BACK if lost else PATIENCE), ""
    while True:
        kind, begun = Over, time.monotonic()
        try:
            return Link(host, port, word, TRY if lost else float("inf"))
        except Lost as again:
            fault = str(again)
        except OSError as again:
            fault = f"cannot connect to {host} at port {port}: {again.strerror or again}"
            if lost and isinstance(again, ConnectionRefusedError):
                raise Over(str(lost)) from None  # the game has ended
            kind = Over if lost else Hopeless
        if not lost and time.monotonic() - begun > TRY:
            deadline = time.monotonic() + PATIENCE  # it had a link, and waited for its game
        if time.monotonic() > deadline:
            raise kind(fault)
        if not lost and fault != told:
            print(f"{fault}; trying for {PATIENCE} seconds", file=sys.stderr)
            told = fault
        time.sleep(BETWEEN)


def game(host, port, word, pause):
    """Plays a game, however often its link is lost."""
    lost, begun = None, 0.0
    while True:
        link = seat(host, port, word, lost)
        if lost:
            passed = time.monotonic() - begun
            print(f"{lost}; reconnected after {passed:.1f} seconds", file=sys.stderr)
        try:
            play(link, pause)
            link.quit()
            return
        except Lost as fault:
            lost, begun = fault, time.monotonic()
            link.close()


def main():
    """Plays a game, or one after the other."""
    parser = argparse.ArgumentParser(description=__doc__,
                                     formatter_class=argparse.RawDescriptionHelpFormatter)
    parser.add_argument("where", nargs="*", metavar="HOST PORT WORD",
                        default=[HOST, str(PORT), WORD])
    parser.add_argument("--pause", type=float, default=2.0,
                        help="seconds between rounds (default: 2)")
    parser.add_argument("--again", action="store_true", default=AGAIN,
                        help="after each game ask for a seat in the next one")
    given = parser.parse_args()
    if len(given.where) != 3 or not given.where[1].isdigit():
        parser.error("give HOST, PORT and WORD, or none of them")
    host, port, word = given.where
    while True:
        try:
            game(host, int(port), word, given.pause)
        except Over as fault:
            if not given.again:
                sys.exit(str(fault))
        except Hopeless as fault:
            sys.exit(str(fault))
        except KeyboardInterrupt:
            sys.exit(130)
        if not given.again:
            return
        time.sleep(1)


if __name__ == "__main__":
    main()
