"""Who may come in: the policy of a listener, without sockets.

Limits are by *network*: an IPv4 address, or the /64 of an IPv6 address, in which a machine chooses
its addresses as it likes. Many players may share one, behind a router. So only strangers are
limited by it: a link that has shown what a player has, a seat's word or a token, is *known*, and
counts by that. All links of a network have a rate: a flood is refused before it costs a place.

A link is a `Visit`:

    visit = gate.arrive(address)  None: close it
    visit.end = close             is called if it has to make room
    visit.deadline                when its first line, or the head of its request, has to be whole
    visit.whole()                 it is: the seconds until it may be judged; None: close it
    visit.is_due(now)             it may be judged
    visit.know(word)              it was right; False if too many links have the same word
    visit.refuse()                it was a wrong word
    visit.part()                  it is sent its last line, and is closed at the deadline
    visit.leave()                 it is closed

A network's first lines are judged at once until they are many, and then one after the other; a
wrong one puts off the next ones by more. So guesses are slow. A right word waits as long as a wrong
one, so silence tells nothing.
"""

from __future__ import annotations

import enum
from collections import Counter
from typing import Callable, Counter as Counts, Dict, List, Optional, Set

from geesefuton.network.addresses import Network, parsed

AT_ONCE = 16  # links that a listener takes before others are served
LINK = 1 / 128  # seconds by which a link puts off the next ones of its network
AHEAD = 2.0  # seconds that a network's links may be put off; beyond that they are refused
LINE = 0.5  # seconds by which a first line puts off the next ones of its network
WRONG = 2.0  # seconds by which a wrong one does so beyond that
CREDIT = 20.0  # seconds that a network's lines are put off before any of them waits
LONGEST = 10.0  # seconds that a first line waits at most; an agent that reconnects waits 15
WAITING = 5  # first lines of a network that wait
MOST_NETWORKS = 1024  # that are remembered without need
PARTING = 1.0  # seconds that a link has to end its side after it was sent its last line


class Standing(enum.Enum):
    """What is known of a visit."""

    STRANGER = "it has not sent a first line"
    JUDGED = "its first line is whole, and is judged or waits for that"
    KNOWN = "it has shown a word or a token"
    PARTING = "it was sent its last line"
    GONE = "it is closed"


class Visit:
    """A link at a gate, which is a stranger at first."""

    def __init__(self, gate: "Gate", network: str, is_local: bool, deadline: float) -> None:
        self._gate, self.network, self.is_local = gate, network, is_local  # of this machine
        self.deadline = deadline  # when it is closed; infinite once its first line is whole
        self.due = 0.0  # when that is judged then
        self.standing, self.word = Standing.STRANGER, ""
        self.end: Callable[[], None] = lambda: None  # closes it, if it has to make room

    def is_known(self) -> bool:
        """Whether it has shown a word or a token."""
        return self.standing is Standing.KNOWN

    def is_parting(self) -> bool:
        """Whether it was sent its last line."""
        return self.standing is Standing.PARTING

    def is_due(self, now: float) -> bool:
        """Whether its first line waits no longer to be judged."""
        return self.standing is Standing.JUDGED and now >= self.due

    def whole(self) -> Optional[float]:
        """Its first line is whole: the seconds until it may be judged; None if too many lines of
        its network wait, so that it is to be closed."""
        gate, self.deadline = self._gate, float("inf")
        wait = max(0.0, gate.lines.put_off(self.network, LINE) - CREDIT)
        if wait and gate.count_judged(self.network) >= WAITING:
            gate.lines.put_off(self.network, -LINE)
            return None
        gate.move(self, Standing.JUDGED)  # also one that had shown something else
        self.due = gate.clock() + wait
        return wait

    def know(self, word: str) -> bool:
        """It has shown a word or a token. Returns whether no more links have it than may."""
        return self._gate.move(self, Standing.KNOWN, word)

    def refuse(self) -> None:
        """It has shown a wrong word or token: it is sent its last line."""
        self._gate.lines.put_off(self.network, WRONG)
        self.part()

    def part(self) -> None:
        """It is sent its last line. Until it is closed it makes room before all others."""
        self._gate.move(self, Standing.PARTING)
        self.deadline = self._gate.clock() + PARTING

    def leave(self) -> None:
        """It is closed. A second call changes nothing."""
        if self.standing is Standing.JUDGED:
            self._gate.lines.put_off(self.network, -LINE)  # no line of it is judged any longer
        self._gate.move(self, Standing.GONE)


class Delays:
    """By how many seconds what comes from each network is put off, `most` at most."""

    def __init__(self, clock: Callable[[], float], most: float) -> None:
        self._clock, self._most = clock, most
        self._until: Dict[str, float] = {}
        self._most_networks = MOST_NETWORKS  # at which those are left out that wait no longer

    def put_off(self, network: str, seconds: float) -> float:
        """Puts off what comes from a network next by more. Returns by how much it is now."""
        now = self._clock()
        if len(self._until) > self._most_networks:
            self._until = {each: until for each, until in self._until.items() if until > now}
            self._most_networks = max(MOST_NETWORKS, 2 * len(self._until))
        until = max(now, self._until.get(network, now)) + seconds
        self._until[network] = min(until, now + self._most)
        return self._until[network] - now


class Gate:
    """Who may come in.

    Args:
        clock: The time in seconds, which does not go back.
        most: The links at a time, of which `each` may be strangers of one network.
        kept: How many of them are kept for those who are known, and for this machine itself, which
            gives up only what it has beyond them; half of them at most.
        first: The seconds until a first line has to be whole.
        own: The links that may have the same word or token.
    """

    def __init__(self, clock: Callable[[], float], most: int, each: int, kept: int, first: float,
                 own: int = 16) -> None:
        self.clock, self._first, self._own = clock, first, own
        self._most, self._each, self._kept = most, each, min(kept, most // 2)
        self.banned: Set[Network] = set()  # from which no link is taken
        self.lines = Delays(clock, CREDIT + LONGEST)  # of first lines
        self._links = Delays(clock, AHEAD + LINK)
        self._known: Counts[str] = Counter()
        self._crowds: Dict[str, List[Visit]] = {}  # those not known by networks, the eldest first

    def arrive(self, address: str, network: str = "") -> Optional[Visit]:
        """A link comes from an address, or a network of its own. Returns None if too many of its
        network have come just now, if there is no place for it, or if its address is banned.

        Raises:
            ValueError: It is no address.
        """
        known = parsed(address)
        if any(known in network for network in self.banned):
            return None
        network = network or str(known if known.version == 4 else int(known) >> 64)
        if self._links.put_off(network, LINK) > AHEAD:
            self._links.put_off(network, -LINK)
            return None
        if not self._has_room(network, known.is_loopback):
            return None
        visit = Visit(self, network, known.is_loopback, self.clock() + self._first)
        self._crowds.setdefault(network, []).append(visit)
        return visit

    def _has_room(self, network: str, is_local: bool) -> bool:
        """Whether a place is free for a stranger of a network, or another one has made room."""
        own, crowds = self._crowds.get(network, []), self._crowds.values()
        near, far = ([crowd for crowd in crowds if crowd[0].is_local is each]
                     for each in (True, False))
        here, there = (sum(map(len, each)) for each in (near, far))
        held = sum(self._known.values()) + here
        if len(own) >= self._each:
            return _make_room(own, False)
        if there < self._most - (held if is_local else max(held, self._kept)):
            return True
        yielding = near if here + is_local > self._kept else far
        crowd = max(yielding or (near if is_local else []), key=len, default=own)
        return _make_room(crowd, len(own) < len(crowd) or is_local is (yielding is far))

    def count_judged(self, network: str) -> int:
        """How many first lines of a network are judged, or wait for that."""
        return sum(each.standing is Standing.JUDGED for each in self._crowds.get(network, []))

    def move(self, visit: Visit, standing: Standing, word: str = "") -> bool:
        """A visit's standing changes. Returns False if too many have its word already."""
        if visit.standing is Standing.GONE:
            return False
        if standing is Standing.KNOWN and self._known[word] >= self._own:
            return False
        if visit.is_known():
            self._known[visit.word] -= 1
        else:
            self._crowds[visit.network].remove(visit)
        if standing is Standing.KNOWN:
            self._known[word] += 1
        elif standing is not Standing.GONE:
            self._crowds.setdefault(visit.network, []).append(visit)
        if not self._crowds.get(visit.network, True):
            del self._crowds[visit.network]
        visit.standing, visit.word = standing, word
        return True


def _make_room(crowd: List[Visit], for_smaller: bool) -> bool:
    """Ends a visit: one that is parting, or else the eldest that has not sent a first line, or else
    for a network with fewer visits the eldest whose line waits. Returns whether there was one."""
    order = [Standing.PARTING, Standing.STRANGER] + [Standing.JUDGED] * for_smaller
    visit = min((each for each in crowd if each.standing in order), default=None,
                key=lambda each: order.index(each.standing))
    if visit is not None:
        visit.end()
        visit.leave()
    return visit is not None


def most_links(most: int, others: int) -> int:
    """How many links the system's limit of open files leaves, `most` at most, if the rest of the
    process may need others."""
    try:
        from resource import RLIM_INFINITY, RLIMIT_NOFILE, getrlimit
    except ImportError:  # no such limit
        return most
    soft, _ = getrlimit(RLIMIT_NOFILE)
    return most if soft == RLIM_INFINITY else max(1, min(most, soft - others))
