#!/usr/bin/env python3
"""Only watches: it prints in which order the hotels close, and at which quotes.

It makes no calls at an auction: a quote does not count as a call.
"""

import time

try:
    from link import run
except ModuleNotFoundError:  # a copy elsewhere: the package
    from geesefuton.link import run


class Watcher:
    """The agent: it looks at all auctions that are open."""

    def __init__(self, link):
        self.link, self.open, self.hotels = link, list(range(28)), []

    def act(self):
        """Looks once, and tells whether it goes on."""
        for good in list(self.open):
            quote = self.link.quote(good)
            if quote.closed:
                self.open.remove(good)
                if 8 <= good < 16:
                    self.hotels.append(f"{good} at {quote.ask}")
        return bool(self.open)


def play(link, pause):
    agent = Watcher(link)
    while agent.act():
        time.sleep(pause)
    print(f"agent {link.agent} saw the hotels close: {', '.join(agent.hotels)}")


if __name__ == "__main__":
    run(__doc__, play)
