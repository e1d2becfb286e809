"""The summary of a tournament: means, differences of pairs, and seats that did not play.

Means, their order and the pairs are over all seats of an agent, each with the score of its log. So
an agent gains nothing by failing where it does badly. The unit of every interval is a deal, since
games of one deal are alike: an agent's value for a deal is the mean over its seats there.
"""

from collections import Counter, defaultdict
from dataclasses import dataclass, replace
from itertools import combinations
from operator import attrgetter
from statistics import fmean
from typing import Callable, Dict, List, Mapping, Optional, Sequence, Set, Tuple

from geesefuton.experiments.comparisons import (LEVEL, Estimate, adjusted, bonferroni_halves,
                                                deals_to_detect, estimate, groups_of, holm,
                                                missing_libraries, signed_rank_p, student_p)
from geesefuton.experiments.covariates import MEAN_FIRST_PRICE, MEAN_LUCK, MEAN_NIGHTS
from geesefuton.experiments.provenance import read_settings
from geesefuton.experiments.results import Kind, Outcome, Row

Seats = Mapping[int, List[Row]]  # rows by seat
Cells = Dict[str, Dict[int, List[Row]]]  # of one agent: its rows by deal and seat
Value = Callable[[Row], float]
SCORE: Value = attrgetter("score")
COVARIATES: Sequence[Value] = tuple(map(attrgetter, ("luck", "nights", "first_price")))
CENTRE = MEAN_LUCK, MEAN_NIGHTS, MEAN_FIRST_PRICE  # those of all made games
UNTAKEN = (Outcome.ABSENT, Outcome.REFUSED)  # seats that nobody took, or played


@dataclass(frozen=True)
class Standing:
    """What an agent came to."""

    agent: str  # its name
    seats: int  # how many seats it had
    ends: Dict[Outcome, int]  # how many of them went how
    score: Estimate  # the mean of the scores of all its seats, in dollars
    # the mean of the seats that played to the end; None if there is none
    played: Optional[Estimate]
    luck: float  # the mean of the luck of its draws in dollars
    adjusted: Optional[Estimate]  # its mean for an average draw; None where it cannot be told
    # in how many ticks it could not act, by what it tells, in the mean; None if it tells nothing
    missed: Optional[float] = None

    @property
    def failed(self) -> int:
        """How many of its seats did not play."""
        return self.seats - self.ends.get(Outcome.PLAYED, 0)

    @property
    def untaken(self) -> int:
        """How many of its seats nobody took, or played."""
        return sum(self.ends.get(end, 0) for end in UNTAKEN)


@dataclass(frozen=True)
class Difference:
    """How much more one agent scored than another, in dollars, by deals that both had."""

    first: str  # the agent with the higher mean
    second: str  # the other
    by_clients: bool  # whether they are compared by clients that both had, and otherwise by games
    left_out: int  # in how many deals both played, but without a client that both had
    # the mean difference; None if there is no deal in which they can be compared
    score: Optional[Estimate]
    adjusted: Optional[Estimate] = None  # `score` for equal, average draws; None if not known
    # the probability by Student's t of such a difference if there is none; None without an interval
    student: Optional[float] = None
    wilcoxon: Optional[float] = None  # the same by Wilcoxon's signed ranks
    holm: Optional[float] = None  # `student`, made larger so that it allows for all pairs
    bonferroni: Optional[float] = None  # half the width of an interval that allows for all pairs
    needed: Optional[int] = None  # how many deals tell a difference as was asked for, if known

    @property
    def is_shown(self) -> bool:
        """Whether these games show that the agents differ, also if one allows for all pairs."""
        return self.holm is not None and self.holm <= 1.0 - LEVEL


@dataclass(frozen=True)
class Summary:
    """The standings of a tournament, the best first, and the difference of each pair."""

    standings: List[Standing]  # one for each agent
    differences: List[Difference]  # one for each pair
    # the agents of which no two are shown to differ, in the order of the standings
    groups: List[List[str]]
    games: int  # how many games were scored
    deals: int  # how many deals they had
    partial: int  # how many of these lack games that were planned
    kinds: Dict[Kind, int]  # how many of the games were played how
    lost: List[str]  # what was lost or could not be written, each in a line
    detect: Optional[float] = None  # the difference in dollars that was asked for (`needed`)
    # why there are no adjusted figures, and none of what tells a difference; "" if there are
    missing: str = ""
    planned: int = 0  # how many games there were to be; 0 if that is not known
    is_stopped: bool = False  # whether a run was stopped before it had played them


def summarize(rows: Sequence[Row], lost: Sequence[str] = (), detect: Optional[float] = None,
              planned: int = 0, is_stopped: bool = False) -> Summary:
    """The summary of rows, of one tournament or of several with different deals."""
    by_agent: Dict[str, List[Row]] = defaultdict(list)
    cells: Dict[str, Cells] = defaultdict(lambda: defaultdict(lambda: defaultdict(list)))
    for row in rows:
        by_agent[row.agent].append(row)
        cells[row.agent][row.deal][row.seat].append(row)
    missing = missing_libraries("figures that are adjusted for the draw")
    standings = [_standing(agent, own, not missing) for agent, own in by_agent.items()]
    standings.sort(key=lambda standing: (standing.untaken == standing.seats, -standing.score.mean))
    names = [standing.agent for standing in standings]
    differences = [_difference(first, second, cells[first], cells[second], not missing, detect)
                   for first, second in combinations(names, 2)]
    differences = [replace(each, holm=chance, bonferroni=half) for each, chance, half in zip(
        differences, holm([each.student for each in differences]),
        bonferroni_halves([each.score for each in differences]))]
    apart = {frozenset((names.index(pair.first), names.index(pair.second)))
             for pair in differences if pair.is_shown}
    kinds = Counter({row.game: row.kind for row in rows}.values())
    return Summary(standings, differences,
                   [[names[place] for place in group] for group in groups_of(len(names), apart)],
                   sum(kinds.values()), len({row.deal for row in rows}), _partial(rows),
                   dict(kinds), list(lost), detect, missing, planned, is_stopped)


def _partial(rows: Sequence[Row]) -> int:
    """How many deals lack games that were planned for them."""
    games: Dict[Tuple[str, str], Set[object]] = defaultdict(set)
    for row in rows:
        games[row.deal, row.settings].add(row.game)
    return len({deal for (deal, settings), played in games.items()
                if len(played) < int(read_settings(settings).get("rotations", 1))})


def _by_deal(rows: Sequence[Row], value: Value) -> List[float]:
    """The mean of a value over an agent's seats, for each deal."""
    deals: Dict[str, List[float]] = defaultdict(list)
    for row in rows:
        deals[row.deal].append(value(row))
    return list(map(fmean, deals.values()))


def _adjusted(scores: Sequence[float], sides: Sequence[Tuple[Seats, Seats]]
              ) -> Optional[Estimate]:
    """A difference that is adjusted, by the two sides of each deal that are compared."""
    luck, nights, first_price = ([[_mean_of_seats(side, value) for side in both] for both in sides]
                                 for value in COVARIATES)
    drawn = [*([ours - theirs for ours, theirs in value] for value in (luck, nights)),
             *([(ours + theirs) / 2.0 for ours, theirs in value]
               for value in (first_price, nights, luck))]
    return adjusted(scores, drawn, [0.0, 0.0, *CENTRE[::-1]])


def _standing(agent: str, rows: Sequence[Row], has_study: bool) -> Standing:
    ends = dict(Counter(row.end for row in rows))
    scores = _by_deal(rows, SCORE)
    drawn = [_by_deal(rows, value) for value in COVARIATES]
    played = _by_deal([row for row in rows if row.end is Outcome.PLAYED], SCORE)
    missed = [row.missed for row in rows if row.missed is not None]
    return Standing(agent, len(rows), ends, estimate(scores), estimate(played) if played else None,
                    fmean(drawn[0]), adjusted(scores, drawn, CENTRE) if has_study else None,
                    fmean(missed) if missed else None)


def _difference(first: str, second: str, ours: Cells, theirs: Cells, has_study: bool,
                detect: Optional[float]) -> Difference:
    """The difference of two agents. Those that had the same clients in most deals that both had, as
    with swapped seats, are compared by such clients alone: others may be worth more or less."""
    deals = [deal for deal in ours if deal in theirs]
    shared = {deal: [seat for seat in ours[deal] if seat in theirs[deal]] for deal in deals}
    by_clients = 2 * sum(map(bool, shared.values())) >= max(1, len(deals))
    if by_clients:
        sides = [({seat: ours[deal][seat] for seat in seats},
                  {seat: theirs[deal][seat] for seat in seats})
                 for deal, seats in shared.items() if seats]
    else:
        sides = [(ours[deal], theirs[deal]) for deal in deals]
    left_out = len(deals) - len(sides)
    if not sides:
        return Difference(first, second, False, left_out, None)
    scores = [_mean_of_seats(our, SCORE) - _mean_of_seats(their, SCORE) for our, their in sides]
    score = estimate(scores)
    return Difference(first, second, by_clients, left_out, score,
                      _adjusted(scores, sides) if has_study else None,
                      student_p(score), signed_rank_p(scores) if score.half is not None else None,
                      needed=deals_to_detect(score, detect) if detect and has_study else None)


def _mean_of_seats(seats: Seats, value: Value) -> float:
    return fmean(fmean(map(value, rows)) for rows in seats.values())
