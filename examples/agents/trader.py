#!/usr/bin/env python3
"""Buys trips as planner.py does, with a little more for rooms, and trades tickets.

For each ticket type it computes what one ticket more, or one less, would change for its clients:
each uses one of a type, on a night of its stay. It bids for the night for which one more brings the
most, a little below that value, and offers a ticket of the night for which one less costs the
least, a little above that value. It repeats this at most 500 times, and then waits for the end of
the game.
"""

import time

try:
    from link import run, ticket
except ModuleNotFoundError:  # a copy elsewhere: the package
    from geesefuton.link import run, ticket
from planner import Planner

MOST_FOR_A_ROOM = 350  # dollars
MARGIN = 10  # dollars that a trade has to gain
MOST_ROUNDS = 500  # of an agent's 1024 calls in an auction, a round takes at most two of a ticket's
NIGHTS = range(1, 5)


def value(clients, kind, held):
    """What the tickets of a type, `held` of each night, are worth to the clients.

    It is a matching in which clients with higher values come first.
    """
    places = [night for night in NIGHTS for _ in range(held[night])]
    users = [None] * len(places)

    def seat(client, tried):
        for place, night in enumerate(places):
            if night in client.nights() and place not in tried:
                tried.add(place)
                if users[place] is None or seat(users[place], tried):
                    users[place] = client
                    return True
        return False

    first = sorted(clients, key=lambda client: -client.values[kind])
    return sum(client.values[kind] for client in first if seat(client, set()))


def trade(link, kind, standing):
    """Bids for one ticket of the type, and offers one.

    `standing` has the points of each bid, and the holding when it was made.
    """
    held = {night: max(0, link.own(ticket(kind, night))) for night in NIGHTS}
    now = value(link.clients, kind, held)
    gain = {night: value(link.clients, kind, held | {night: held[night] + 1}) - now
            for night in NIGHTS}
    loss = {night: now - value(link.clients, kind, held | {night: held[night] - 1})
            for night in NIGHTS if held[night] > 0}
    buys, sells = max(gain, key=gain.get), min(loss, key=loss.get, default=None)
    for night in NIGHTS:
        points = []
        if night == buys and gain[night] > MARGIN:
            points.append((1, gain[night] - MARGIN))
        if night == sells:
            points.append((-1, loss[night] + MARGIN))
        good = ticket(kind, night)
        if (held[night], points) == standing.get(good, (held[night], [])):
            continue  # nothing was traded since, and the bid stays the same
        if points:
            link.bid(good, *points)
        else:
            # If all of it was traded, this is refused and changes nothing.
            link.ask(f"withdraw {good}")
        standing[good] = held[night], points


class Trader(Planner):
    """The agent: a planner that trades tickets, too."""

    def __init__(self, link):
        super().__init__(link)
        self.most, self.offers, self.rounds = MOST_FOR_A_ROOM, {}, 0

    def act(self):
        """Bids and trades, unless the game is over, and tells whether it goes on."""
        goes_on = super().act()
        if goes_on and self.rounds < MOST_ROUNDS:
            for kind in range(3):
                trade(self.link, kind, self.offers)
        self.rounds += 1
        return goes_on


def play(link, pause):
    agent = Trader(link)
    while agent.act():
        time.sleep(pause)
    needs = agent.needs
    bought = sum(link.own(good) for good in needs)
    tickets = sum(link.own(ticket(kind, night)) for kind in range(3) for night in NIGHTS)
    print(f"agent {link.agent} has {bought} of {sum(needs.values())} units, had {sum(link.endow)} "
          f"tickets, has {tickets}, cash {link.cash()}")


if __name__ == "__main__":
    run(__doc__, play)
