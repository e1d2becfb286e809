"""Joins the results of several tournaments, if they belong together.

Results belong together if their games were played in the same way, with the same settings, by the
same agents with the same files, and no game occurs twice.
"""

from collections import Counter
from dataclasses import dataclass, replace
from pathlib import Path
from typing import Dict, List, Sequence, Set, Tuple

from geesefuton.experiments.provenance import read_settings, unlike
from geesefuton.experiments.results import Kind, Row
from geesefuton.experiments.runs import SCORES, RunError, is_run, read_record, read_scores

WAYS = {Kind.SERVED: "by the clock", Kind.TURNS: "in turns", Kind.UNREPEATABLE: "in turns"}


@dataclass(frozen=True)
class Source:
    """What one folder has."""

    name: str  # as it was given
    rows: Sequence[Row]  # one or more
    planned: int = 0  # how many games it was to have
    is_stopped: bool = False  # whether its last run did not end by itself
    lost: Sequence[str] = ()  # what its last run lost, each in a line
    told: Sequence[str] = ()  # what of its rows is left out, each in a line


def read_source(path: Path) -> Source:
    """What the folder of a run has. Raises RunError where it is none, or has no games."""
    if not is_run(path):
        raise RunError(f"{path}: it is not the folder of a tournament's run")
    record, found = read_record(path), read_scores(path)
    told = [f"{path / SCORES}: {text}; its game is left out" for text in found.told]
    if not found.rows:
        raise RunError("; ".join([*told, f"{path}: it has no games"]))
    last = record["runs"][-1] if record["runs"] else {}
    return Source(str(path), found.rows, int(record.get("planned", 0)),
                  last.get("ended") is None or last.get("status", 0) > 128,
                  last.get("lost", []), told)


def missing(source: Source) -> str:
    """What a source lacks of its plan; "" if it has all."""
    played = len({row.place for row in source.rows})
    if played >= source.planned and not source.lost:
        return ""
    how = "it was stopped" if source.is_stopped else f"{len(source.lost)} were lost"
    return f"{source.name}: {played} of {source.planned} games were played ({how})"


def whole_deals(source: Source) -> Tuple[Source, int]:
    """A source with the deals alone of which it has all games, and how many it has only in part."""
    size = int(read_settings(source.rows[0].settings).get("rotations", 1))
    games = Counter(number for number, _ in {row.place for row in source.rows})
    whole = [row for row in source.rows if games[row.number] == size]
    return replace(source, rows=whole), sum(count < size for count in games.values())


def differences(first: Source, other: Source) -> List[str]:
    """Why the rows of two sources do not belong together, each in a line; none if they do."""
    ways, others = ({WAYS[row.kind] for row in source.rows} for source in (first, other))
    texts = [] if ways == others else [
        f"its games are {' and '.join(sorted(others))}, not {' and '.join(sorted(ways))}"]
    ours, theirs = ({row.settings for row in source.rows} for source in (first, other))
    texts += next((unlike(read_settings(our), read_settings(their)) for our in sorted(ours)
                   for their in sorted(theirs) if our != their), [])
    files: Dict[str, Set[str]] = {}
    for row in [*first.rows, *other.rows]:
        files.setdefault(row.agent, set()).add(row.files)
    texts += [f"the files, libraries or words of {agent} differ"
              for agent, digests in files.items() if len(digests) > 1]
    return [f"{other.name} does not belong to {first.name}: {text}" for text in texts]


def twice(sources: Sequence[Source]) -> List[str]:
    """Which seats of games are there more than once, a line for each pair of sources."""
    seen: Dict[Tuple[str, int, int], str] = {}
    told: Dict[Tuple[str, str], List[str]] = {}
    for source in sources:
        for row in source.rows:
            first = seen.get((row.deal, row.rotation, row.seat), "")
            seen.setdefault((row.deal, row.rotation, row.seat), source.name)
            if first:
                told.setdefault((first, source.name), []).append(row.game_name)
    return [(f"{other} and {first} both have" if first != other else f"{first} has twice")
            + f" game {games[0]}"
            + (f" and {len(set(games)) - 1} more" if len(set(games)) > 1 else "")
            for (first, other), games in told.items()]


def joined(sources: Sequence[Source]) -> Tuple[List[Row], List[str]]:
    """The rows of sources that belong together, and why some do not, each in a line."""
    refused = twice(sources)
    for source in sources[1:]:
        refused += differences(sources[0], source)
    return [row for source in sources for row in source.rows], refused


def pooled(sources: Sequence[Source]) -> Tuple[List[Row], List[str]]:
    """The rows of sources as pools, and what is there twice in one of them.

    What belongs together is one pool, called by its first source; agents are called by their pools,
    too, and the games of each pool are its own.
    """
    pools: List[List[Source]] = []
    for source in sources:
        pool = next((pool for pool in pools if not differences(pool[0], source)), None)
        if pool is None:
            pool = []
            pools.append(pool)
        pool.append(source)
    rows = [replace(row, agent=f"{row.agent} in {pool[0].name}", source=pool[0].name)
            for pool in pools for source in pool for row in source.rows]
    return rows, [line for pool in pools for line in twice(pool)]
