#!/usr/bin/env python3
"""Buys a fixed plan: for each client its preferred trip, in the hotel that its premium pays for.

It buys the flights at once, and bids for the rooms 50 dollars above the quote, at most 300, and
again when the quote has reached its bid, until the game is over. It keeps its tickets. It begins
with its holdings, so it can be restarted during its game.
"""

import time
from collections import Counter

try:
    from link import HOTELS, inbound, outbound, room, run, solve
except ModuleNotFoundError:  # a copy elsewhere: the package
    from geesefuton.link import HOTELS, inbound, outbound, room, run, solve

MOST_FOR_A_SEAT = 600  # dollars
MOST_FOR_A_ROOM = 300  # dollars


def plan(clients):
    """How many units of each good the clients' trips need."""
    needs = Counter()
    for client in clients:
        hotel = 1 if client.premium > 100 else 0
        needs[inbound(client.arrive)] += 1
        needs[outbound(client.depart)] += 1
        needs.update(room(hotel, night) for night in client.nights())
    return needs


def buy_seats(link, needs):
    """Buys the seats of the plan that it lacks at once, whatever they cost up to a limit."""
    for good, units in needs.items():
        lacking = 0 if good in HOTELS else units - link.own(good)
        if lacking > 0:
            link.bid(good, (lacking, MOST_FOR_A_SEAT))


def bid_for_rooms(link, needs, standing, most):
    """Bids for the rooms of the plan whose quote has reached the standing bid.

    `standing` has the dollars of the standing bids.
    """
    for good in HOTELS:
        quote = link.quote(good)
        price = min(quote.ask + 50, most)
        # A bid replaces the earlier one, so it is worth a call only if the quote has reached that
        # and a higher bid is allowed.
        is_reached = standing[good] <= quote.ask and standing[good] < price
        if needs[good] and not quote.closed and is_reached:
            link.bid(good, (needs[good], price))
            standing[good] = price


class Planner:
    """The agent: it begins with what it holds, and then acts again and again."""

    def __init__(self, link):
        self.link, self.needs, self.standing = link, plan(link.clients), Counter()
        self.most = MOST_FOR_A_ROOM
        buy_seats(link, self.needs)

    def act(self):
        """Bids for rooms, unless the game is over, and tells whether it goes on."""
        if self.link.quote(0).closed:
            return False
        bid_for_rooms(self.link, self.needs, self.standing, self.most)
        return True


def play(link, pause):
    agent = Planner(link)
    while agent.act():
        time.sleep(pause)
    holdings = [link.own(good) for good in range(28)]
    needs = agent.needs
    bought, worth = sum(holdings[good] for good in needs), solve(holdings, link.clients)
    told = "unknown" if worth is None else worth
    print(f"agent {link.agent} planned {sum(needs.values())} units, has {bought} of these, "
          f"worth {told}, cash {link.cash()}")


if __name__ == "__main__":
    run(__doc__, play)
