#!/usr/bin/env python3
"""Learns one seat's bids from rewards, and compares it with the planner in the same seat and games.

Its policy is a table: the probability of each level of `geesefuton.learning.numeric`, for each
phase of a game (the number of hotel nights that have closed) and each group of goods (flights,
hotel nights, tickets). It plays each game eight times with levels drawn from the table, and makes
levels likelier by how far their rewards exceed the mean of the eight (REINFORCE). Its opponents are
planners. All draws come from `--seed`. It learns from the games of the seeds 1, 2, .., and compares
the likeliest levels in the unseen games of 1,000,001, ... It needs `numpy`.
"""

import argparse
import statistics
import sys

from step import Environment  # noqa: F401  # first: it finds the package

try:
    import numpy as np
except ImportError as fault:
    sys.exit(f"learn_numeric.py: it needs numpy: {fault}")

from geesefuton import program
from geesefuton.arguments import whole
from geesefuton.learning.numeric import LEVELS, SEATS, Seat
from geesefuton.learning.rivals import maker_of, scores_of
from geesefuton.processes import command
from geesefuton.records.games import read_game

GROUPS = ((0, 8), (8, 16), (16, 28))  # the goods of a group: flights, hotel nights, tickets
PHASES, TIMES, RATE = 9, 8, 1.0
CLOSED = slice(41, 49)  # the places of an observation that tell which nights have closed
UNSEEN = 1_000_001


def likelihoods(table):
    """How likely each level is, by phase and group."""
    powers = np.exp(table - table.max(axis=-1, keepdims=True))
    return powers / powers.sum(axis=-1, keepdims=True)


def play(environment, seed, levels):
    """The rewards of a game in all, and its score, with a level for each phase and group."""
    observation, _ = environment.reset(seed=seed)
    total, tick, end, info = 0.0, 0, False, {}
    while not end:
        phase = int(observation[CLOSED].sum())
        action = np.zeros(28, int)
        if tick % 6 in (0, 3):  # once after each closing, and once between two
            for group, (first, last) in enumerate(GROUPS):
                action[first:last] = levels[phase, group]
        observation, reward, end, _, info = environment.step(action)
        total, tick = total + reward, tick + 1
    return total, info["score"]


def learn(environment, given, source):
    """The table after all games."""
    table, told = np.zeros((PHASES, len(GROUPS), LEVELS)), []
    table[:, 2, 0] = 2.0  # at first tickets are mostly left alone
    for seed in range(1, given.games + 1):
        odds, rewards, drawn = likelihoods(table), [], []
        for _ in range(TIMES):
            levels = (odds.cumsum(-1) > source.random((PHASES, len(GROUPS), 1))).argmax(-1)
            rewards.append(play(environment, seed, levels)[0])
            drawn.append(np.eye(LEVELS)[levels] - odds)
        mean, spread = statistics.mean(rewards), statistics.pstdev(rewards) or 1.0
        for reward, gradient in zip(rewards, drawn):
            table += RATE / TIMES * (reward - mean) / spread * gradient
        told.append(mean)
        if seed % 20 == 0:
            print(f"{seed} games: a reward of {statistics.mean(told[-20:]):.2f} a game", flush=True)
    return table


def main():
    parser = argparse.ArgumentParser(description=__doc__,
                                     formatter_class=argparse.RawDescriptionHelpFormatter)
    parser.add_argument("--games", type=whole(0), default=200,
                        help="learn from this many games (default: 200)")
    parser.add_argument("--unseen", type=whole(2), default=80,
                        help="compare in this many games (default: 80)")
    parser.add_argument("--seed", type=whole(0), default=1, help="draw from this seed (default: 1)")
    given = parser.parse_args()
    environment = Seat(rivals=dict.fromkeys(SEATS[1:], "planner"))
    table = learn(environment, given, np.random.default_rng(given.seed))
    best, seeds = table.argmax(axis=-1), range(UNSEEN, UNSEEN + given.unseen)
    mine = [play(environment, seed, best)[1] for seed in seeds]
    environment.close()
    planners = dict.fromkeys(range(8), maker_of("planner"))
    theirs = [scores_of(read_game(program.make(seed)), planners, seed)[0] for seed in seeds]
    gains = [own - other for own, other in zip(mine, theirs)]
    error = statistics.stdev(gains) / len(gains) ** 0.5
    print(f"levels by phase: flights {best[:, 0]}, hotel nights {best[:, 1]}, tickets {best[:, 2]}")
    print(f"{len(gains)} unseen games: {statistics.mean(mine):.0f} dollars a game, "
          f"the planner in its seat {statistics.mean(theirs):.0f}: {statistics.mean(gains):.0f} "
          f"more, with a standard error of {error:.0f} over pairs")
    return 0


if __name__ == "__main__":
    sys.exit(command("learn_numeric.py", main))
