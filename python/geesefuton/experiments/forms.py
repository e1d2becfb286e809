"""A summary as text and as JSON, and the grades of its agents."""

import json
import math
from dataclasses import asdict
from string import ascii_uppercase
from typing import List, Optional, Sequence

from geesefuton.experiments.comparisons import LEVEL, POWER, Estimate
from geesefuton.experiments.results import Kind, Outcome
from geesefuton.experiments.summary import Difference, Standing, Summary
from geesefuton.processes import Output, shown, tell
from geesefuton.records.games import TICKS
from geesefuton.records.tables import csv_of

MARK = "*"  # at a mean with seats that nobody took
ADJUSTED = "adjusted for the draw"
MOST_MISSED = 0.1  # of the ticks, without a warning
GRADES_HEAD = ["entrant", "mean", "low", "high", "groups", "games_not_finished"]


def number_text(value: Optional[Estimate]) -> str:
    """A mean in whole dollars with its interval; `-` where there is none."""
    if value is None:
        return "-"
    half = "?" if value.half is None else f"{value.half:.0f}"
    return f"{round(value.mean)} +- {half}"  # a whole number has no -0


def _chance(value: Optional[float]) -> str:
    return "-" if value is None else f"{value:.3f}"


def printed(command: str, text: str, told: Sequence[str] = ()) -> int:
    """Writes a text to standard output, tells each fault of before and of writing, and gives the
    exit status of a command."""
    out = Output(1)
    out.write(text)
    told = [*told, *([f"{out.name}: {out.fault}"] if out.fault is not None else [])]
    for each in told:
        tell(f"{command}: {each}")
    return 1 if told else 0


def count_text(number: int, what: str) -> str:
    """A number of things."""
    return f"{number} {what}" if number == 1 else f"{number} {what}s"


def columns(rows: Sequence[Sequence[str]], most: float = math.inf) -> List[str]:
    """Lines with the cells of each column one below the other, the first aligned left. Columns for
    which lines of so many letters have no room stand below, beside the first column again."""
    widths = [max(map(len, column)) for column in zip(*rows)]
    count = max([2, *(number for number in range(3, len(widths) + 1)
                      if sum(widths[:number]) + 2 * (number - 1) <= most)])
    lines = ["  ".join(cell.ljust(width) if place == 0 else cell.rjust(width)
                       for place, (cell, width) in enumerate(zip(row[:count], widths))).rstrip()
             for row in rows]
    rest = [[row[0], *row[count:]] for row in rows]
    return lines + (["", *columns(rest, most)] if len(widths) > count else [])


def _reasons(standing: Standing) -> str:
    told = [f"{standing.ends[end]} {end.value}" for end in Outcome
            if end is not Outcome.PLAYED and end in standing.ends]
    return f"{standing.failed} of {standing.seats}" + (f": {', '.join(told)}" if told else "")


def _way(pair: Difference) -> str:
    return "clients" if pair.by_clients else "games"


def _of_pairs(pairs: Sequence[Difference], summary: Summary) -> List[List[str]]:
    are_many, detect = len(pairs) > 1, summary.detect
    ways = set(map(_way, pairs))
    told = {"clients": ", by clients that both had", "games": ", by games"}
    rows = [["difference" + (told[ways.pop()] if len(ways) == 1 else ""), "mean",
             *(["all pairs"] if are_many else []), ADJUSTED, "deals", "p (Student)",
             *(["p (Holm)"] if are_many else []), "p (Wilcoxon)",
             *([f"games to detect {detect:g}"] if detect else [])]]
    for pair in pairs:
        all_pairs = "?" if pair.bonferroni is None else f"+- {pair.bonferroni:.0f}"
        games = "?" if pair.needed is None else str(
            math.ceil(pair.needed * summary.games / summary.deals))
        rows.append([f"{shown(pair.first)} less {shown(pair.second)}"
                     + (f", by {_way(pair)}" if ways else ""), number_text(pair.score),
                     *([all_pairs] if are_many else []), number_text(pair.adjusted),
                     str(pair.score.count if pair.score else 0), _chance(pair.student),
                     *([_chance(pair.holm)] if are_many else []), _chance(pair.wilcoxon),
                     *([games] if detect else [])])
    return rows


def _below_pairs(pairs: Sequence[Difference], summary: Summary) -> List[str]:
    lines = []
    if len(pairs) > 1:
        groups = [", ".join(map(shown, group)) for group in summary.groups if len(group) > 1]
        lines += [f"all pairs: intervals that together hold for all {len(pairs)} comparisons "
                  "(Bonferroni); p (Holm) allows for all of them, too",
                  f"not separated, with p (Holm) above 0.05: {'; '.join(groups) or 'none'}"]
    if summary.detect and not summary.missing:
        lines.append(f"with so many games, {100 * POWER:g} % of experiments detect a difference of "
                     f"{summary.detect:g} dollars, for the largest spread that these games leave "
                     f"possible ({100 * POWER:g} % upper limit)")
    return lines


def undecided(summary: Summary) -> List[str]:
    """What the games do not tell, each in a line."""
    lines = []
    if summary.games < summary.planned:
        lines.append(f"{summary.games} of {summary.planned} planned games were played"
                     + (": the run was stopped" if summary.is_stopped else ""))
    lines += [f"{shown(standing.agent)} missed {standing.missed:.0f} of {TICKS} ticks in the mean: "
              "it had too few turns, or too little time" for standing in summary.standings
              if standing.missed is not None and standing.missed > MOST_MISSED * TICKS]
    if len(summary.standings) == 1:
        lines.append("one agent: there is nothing to compare")
    if summary.deals == 1:
        lines.append("one deal: there are no intervals")
    if summary.partial:
        lines.append(f"{count_text(summary.partial, 'deal')} not played whole: some clients count "
                     "for some agents alone")
    for pair in summary.differences:
        names = f"{shown(pair.first)} less {shown(pair.second)}"
        if pair.score is None:
            lines.append(f"{names}: no deal of both" + (" with a client of both"
                                                       if pair.left_out else ""))
        elif pair.left_out:
            lines.append(f"{names}: {count_text(pair.left_out, 'deal')} left out, without a client "
                         "of both")
    return lines + ([summary.missing] if summary.missing else [])


def as_text(summary: Summary, most: float = math.inf) -> str:
    """The summary in lines for a reader, with tables that are at most so many letters wide."""
    lines = [f"{count_text(summary.games, 'game')} of {count_text(summary.deals, 'deal')}; dollars "
             "with 95 % intervals by deals (Student's t)"]
    turns, broken = (summary.kinds.get(kind, 0) for kind in (Kind.TURNS, Kind.UNREPEATABLE))
    if turns + broken:
        lines.append(f"in turns: {count_text(turns, 'game')} that can be repeated"
                     + (f", and {broken} in which an agent was passed over" if broken else ""))
    lines.append("")
    rows = [["agent", "mean", "of seats that played", "luck", f"mean {ADJUSTED}",
             "did not play"]]
    rows += [[shown(standing.agent), number_text(standing.score) + MARK * (standing.untaken > 0),
              number_text(standing.played), f"{standing.luck:.0f}", number_text(standing.adjusted),
              _reasons(standing)] for standing in summary.standings]
    lines += columns(rows, most)
    if any(standing.untaken for standing in summary.standings):
        lines.append(f"{MARK} includes seats that nobody took, with the scores of their logs")
    pairs = [pair for pair in summary.differences if pair.score]
    if pairs:
        lines += ["", *columns(_of_pairs(pairs, summary), most), *_below_pairs(pairs, summary)]
    told = [*undecided(summary), *summary.lost]
    return "\n".join([*lines, *([""] if told else []), *told]) + "\n"


def as_json(summary: Summary) -> str:
    """The summary as one JSON object, in exact numbers."""
    told = asdict(summary)
    agents = told.pop("standings")
    return json.dumps({**told, "agents": agents, "level": LEVEL, "undecided": undecided(summary)},
                      indent=1) + "\n"


def as_grades(summary: Summary) -> str:
    """Grades as CSV, the best first: an agent's mean, the ends of its interval in dollars, its
    groups, and how many of its seats did not play to the end."""
    lines: List[Sequence[object]] = [GRADES_HEAD]
    for standing in summary.standings:
        mean, half = standing.score.mean, standing.score.half
        ends = [""] * 2 if half is None else [f"{mean - half:.2f}", f"{mean + half:.2f}"]
        lines.append([standing.agent, f"{mean:.2f}", *ends, letters_of(summary, standing.agent),
                      standing.failed])
    return csv_of(lines)


def letters_of(summary: Summary, agent: str) -> str:
    """The groups of an agent, each a letter. These games do not separate agents that have one in
    common, by Holm's test over all pairs."""
    return "".join(ascii_uppercase[number] if number < len(ascii_uppercase) else f"({number + 1})"
                   for number, group in enumerate(summary.groups) if agent in group)
