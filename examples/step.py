#!/usr/bin/env python3
"""Plays a small game in steps: one agent buys seats and bids for rooms, and sees in hindsight what
each step is worth.

An agent that learns uses the same calls, which `geesefuton.learning.environment` describes;
`learner.py` is one. This agent plays for the first client of a made game.
"""

import sys
from pathlib import Path

sys.path.insert(0, str(Path(__file__).resolve().parent.parent / "python"))

from geesefuton.learning.environment import Environment  # noqa: E402
from geesefuton.records.games import inbound, outbound, room  # noqa: E402
from geesefuton.processes import command  # noqa: E402


def requests(client, observation):
    """Bids for the seats of a trip before the first tick, and then for rooms where none is had."""
    arrive, depart, *_ = client
    if observation["tick"] == 0:
        return [f"bid {good} ((1 600))" for good in (inbound(arrive), outbound(depart))]
    rooms = [room(0, night) for night in range(arrive, depart)]
    asks = {good: ask for good, (_, ask, closed) in enumerate(observation["quotes"])
            if good in rooms and not closed}
    return [f"bid {good} ((1 {ask + 50}))" for good, ask in asks.items()]


def main():
    with Environment(hindsight=True) as environment:
        observations, infos = environment.reset(42)
        agent = environment.agents[0]
        client = infos[agent]["clients"][0]
        print(f"{agent} has a client who wants {client}")
        while environment.agents:
            is_due = observations[agent]["tick"] % 18 == 0
            asked = requests(client, observations[agent]) if is_due else []
            observations, rewards, _, _, infos = environment.step({agent: asked})
            if asked:
                print(f"it asks {asked}, and gets {infos[agent]['replies']}",
                      f"its score is {infos[agent]['hindsight']} if nobody asks anything more",
                      environment.render(), sep="\n")
    print(f"its score is {rewards[agent]}")
    return 0


if __name__ == "__main__":
    sys.exit(command("step.py", main))
