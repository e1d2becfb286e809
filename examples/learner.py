#!/usr/bin/env python3
"""Learns to bid for rooms, and shows its gain on games that it has not seen.

Its rule has four numbers: the most dollars for a room, how many dollars above the quote it bids,
the most nights of a trip, and the premium from which a client stays at the better hotel. It plays
against seven opponents, which bid 50 dollars above the quote up to limits of their own, and changes
its seat from game to game. In each round it draws rules around the current one, plays the same
games with each of them, and takes the mean of the best quarter (the cross-entropy method). All
draws come from `--seed`, so the same words print the same lines. It learns from the games of the
seeds 1, 2, .., and compares in the unseen games of 1,000,001, ...
"""

import argparse
import random
import statistics
import sys
from collections import Counter

from step import Environment  # first: it finds the package

from geesefuton.arguments import whole
from geesefuton.records.games import HOTELS, inbound, outbound, room
from geesefuton.processes import command

FIRST, SPREAD = (200, 50, 4, 100), (80, 60, 1, 15)  # dollars, dollars, nights, dollars
LEAST, MOST = (10, 1, 1, 50), (600, 600, 4, 151)
RIVALS = (150, 200, 250, 300, 350, 400, 450)  # the most dollars that each bids for a room
MOST_FOR_A_SEAT = 600  # dollars
UNSEEN = 1_000_001


def needs_of(clients, rule):
    """How many units of each good the clients' trips need."""
    needs = Counter()
    for arrive, depart, premium, *_ in clients:
        depart = min(depart, arrive + rule[2])
        needs.update([inbound(arrive), outbound(depart)])
        needs.update(room(int(premium >= rule[3]), night) for night in range(arrive, depart))
    return needs


def requests(needs, observation, rule):
    """Buys the seats before the first tick, and bids for rooms after each publication."""
    if observation["tick"] % 6:
        return []
    asked = []
    for good, units in needs.items():
        _, ask, closed = observation["quotes"][good]
        if good in HOTELS and not closed and ask < rule[0]:
            asked.append(f"bid {good} (({units} {min(ask + rule[1], rule[0])}))")
        if good not in HOTELS and observation["tick"] == 0:
            asked.append(f"bid {good} (({units} {MOST_FOR_A_SEAT}))")
    return asked


def play(environment, seed, rule):
    """The score of the learning agent in the game of a seed."""
    observations, infos = environment.reset(seed)
    learning, *rivals = environment.agents[seed % 8:] + environment.agents[:seed % 8]
    rules = {agent: (most, *FIRST[1:]) for agent, most in zip(rivals, RIVALS)}
    rules[learning] = tuple(map(round, rule))
    needs = {agent: needs_of(infos[agent]["clients"], rules[agent]) for agent in rules}
    while environment.agents:
        actions = {agent: requests(needs[agent], observations[agent], rules[agent])
                   for agent in environment.agents}
        observations, rewards, *_ = environment.step(actions)
    return rewards[learning]


def near(source, rule, spread):
    """A rule that is drawn around another one."""
    return tuple(min(most, max(least, source.gauss(mean, width)))
                 for mean, width, least, most in zip(rule, spread, LEAST, MOST))


def learn(environment, given):
    """The rule after all rounds."""
    source, rule, spread = random.Random(given.seed), FIRST, SPREAD
    for number in range(given.rounds):
        seeds = range(1 + number * given.games, 1 + (number + 1) * given.games)
        tried = []
        for drawn in [near(source, rule, spread) for _ in range(given.rules)]:
            tried.append((statistics.mean(play(environment, seed, drawn) for seed in seeds), drawn))
        best = [drawn for _, drawn in sorted(tried)[-max(2, given.rules // 4):]]
        rule = tuple(map(statistics.mean, zip(*best)))
        spread = [(old + statistics.pstdev(numbers)) / 2
                  for old, numbers in zip(spread, zip(*best))]
        print(f"round {number + 1}: {statistics.mean(score for score, _ in tried):.0f} dollars a "
              f"game; now at most {rule[0]:.0f} for a room, {rule[1]:.0f} above the quote, "
              f"{rule[2]:.1f} nights, a premium of {rule[3]:.0f}", flush=True)
    return rule


def main():
    parser = argparse.ArgumentParser(description=__doc__,
                                     formatter_class=argparse.RawDescriptionHelpFormatter)
    parser.add_argument("--rounds", type=whole(0), default=6,
                        help="learn for this many rounds (default: 6)")
    parser.add_argument("--rules", type=whole(2), default=16,
                        help="try this many rules a round (default: 16)")
    parser.add_argument("--games", type=whole(1), default=8,
                        help="play this many games by each rule (default: 8)")
    parser.add_argument("--unseen", type=whole(2), default=80,
                        help="compare in this many games (default: 80)")
    parser.add_argument("--seed", type=whole(0), default=1, help="draw from this seed (default: 1)")
    given = parser.parse_args()
    with Environment() as environment:
        rule = learn(environment, given)
        gains = [play(environment, seed, rule) - play(environment, seed, FIRST)
                 for seed in range(UNSEEN, UNSEEN + given.unseen)]
    error = statistics.stdev(gains) / len(gains) ** 0.5
    print(f"{len(gains)} unseen games: {statistics.mean(gains):.0f} dollars a game more than by "
          f"the first rule, with a standard error of {error:.0f} over pairs")
    return 0


if __name__ == "__main__":
    sys.exit(command("learner.py", main))
