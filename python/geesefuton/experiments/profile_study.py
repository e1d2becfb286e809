"""The games of the command `profiles`, and what it prints. It needs the extra `study`."""

import argparse
from dataclasses import replace
from pathlib import Path
from typing import List, Sequence, Tuple

import numpy as np

from geesefuton.arguments import Parser
from geesefuton.experiments.comparisons import Estimate
from geesefuton.experiments.deals import place_of
from geesefuton.experiments.equilibria import NEAR, SymmetricGame, equilibria, find, gains
from geesefuton.experiments.forms import columns, count_text, number_text, printed
from geesefuton.experiments.joining import joined, read_source
from geesefuton.experiments.payoffs import Payoffs
from geesefuton.experiments.plan import read_plan
from geesefuton.experiments.provenance import read_settings
from geesefuton.experiments.reduction import needed_profiles, text_of_profile
from geesefuton.experiments.results import Row
from geesefuton.experiments.runs import is_run, read_record
from geesefuton.experiments.tournament import play_in_folder
from geesefuton.processes import shown, tell, write_whole
from geesefuton.records.games import SEATS

PAYOFFS = "payoffs.csv"


class Study:
    """The games of strategies, some of which were played before, also with other strategies.

    Profiles are those of all strategies that the folder has and of the new ones, so that a profile
    keeps its number.

    Attributes:
        names: The strategies that the command names.
        players: How many players the game has.
    """

    def __init__(self, parser: Parser, given: argparse.Namespace) -> None:
        self._parser, self.players = parser, given.players
        plan = read_plan(parser, given, are_deals=True)
        if len(plan.agents) < max(2, len(plan.entrants)):
            parser.error("name two or more strategies, each once")
        self.names = [entrant.name for entrant in plan.entrants]
        known = read_record(plan.out)["agents"] if is_run(plan.out) else []
        self._universe = list(dict.fromkeys([*(agent["name"] for agent in known), *self.names]))
        self._profiles = needed_profiles(len(self._universe), self.players)
        by_name = {entrant.name: entrant for entrant in plan.entrants}
        lineups = [[by_name[name] for name, count in zip(self._universe, profile)
                    for _ in range(count) if name in by_name] for profile in self._profiles]
        settings = {name: value for name, value in plan.settings.items()
                    if name not in ("agents", "rotations")}
        self._plan = replace(plan, games=plan.games * len(lineups), rotations=len(lineups),
                             settings={**settings, "players": self.players}, lineups=lineups)

    def play(self, names: Sequence[str], mixed: int) -> Tuple[int, List[Row]]:
        """Plays what is missing of the profiles in which rivals have the first `mixed` of these
        strategies. Gives the exit status, and the rows of all games that were played so far."""
        places = [self._universe.index(name) for name in names]
        due = {tuple(dict(zip(places, profile)).get(place, 0)
                     for place in range(len(self._universe)))
               for profile in needed_profiles(len(names), self.players, mixed)}
        plan = self._plan
        status, rows, _ = play_in_folder(self._parser, plan, {
            place_of(number, plan.rotations) for number in range(plan.games)
            if self._profiles[number % plan.rotations] not in due})
        self._plan = replace(plan, is_resumed=True)
        return status, rows


def _joined(parser: Parser, folders: Sequence[str]) -> Payoffs:
    """The payoffs of studies of the same strategies, each with deals of its own."""
    sources = [read_source(Path(folder)) for folder in folders]
    rows, refused = joined(sources)
    told = [text for source in sources for text in source.told] + refused
    players = read_settings(rows[0].settings).get("players")
    if told or players is None:
        parser.error("; ".join(told) or "--join needs the folders of studies")
    # The strategies as they came: a profile's number is the higher, the later they did.
    names = dict.fromkeys(row.agent for row in sorted(rows, key=lambda row: row.rotation))
    return Payoffs(list(names), int(players), rows)


def _gain_text(value: Estimate) -> str:
    return number_text(value) if value.half != 0.0 or value.mean else "0"


def _of_equilibria(payoffs: Payoffs) -> List[str]:
    findings = find(payoffs.players, payoffs.samples(), payoffs.mixed)
    names = list(map(shown, payoffs.names))
    rows = [["symmetric equilibria, by shares", *names, "of resamples"]]
    nobody = [""] * (len(names) - payoffs.mixed)
    for number, each in enumerate(findings.equilibria, 1):
        times = f"{each.times} of {findings.resamples}" if findings.resamples else "?"
        rows += [[f"{number}.", *(f"{share:.3f}" for share in each.mixture), *nobody, times],
                 ["   a seat gains by", *map(_gain_text, each.gains), ""]]
    lines = []
    if findings.resamples:
        rows += [["any other, or none found", *[""] * len(names),
                  f"{findings.others} of {findings.resamples}"]]
        lines = ["", f"An equilibrium of a resample counts as one of these if their shares differ "
                 f"by at most {NEAR:g}."]
    if not findings.equilibria:
        verdict = "NOT KNOWN: the search found no equilibrium, though there is one."
    elif not findings.resamples:
        verdict = "NOT KNOWN: a single deal cannot be resampled; play more."
    elif not all(each.is_single for each in findings.equilibria):
        verdict = ("NOT KNOWN: some strategies do exactly as well as others, so there are more "
                   "equilibria than can be listed.")
    elif not findings.are_known:
        verdict = "NOT KNOWN: these deals do not settle which equilibria there are; play more."
    else:
        verdict = "Other deals would most likely give the same equilibria."
    return [*columns(rows), *lines, verdict]


def _text_of(payoffs: Payoffs) -> str:
    names = list(map(shown, payoffs.names))
    size = "the full game" if payoffs.players == SEATS else \
        f"reduced to {payoffs.players} players"
    head = [f"{count_text(len(payoffs.deals), 'deal')} of {len(payoffs.profiles)} profiles, "
            f"{size}; dollars a seat with 95 % intervals by deals (Student's t)",
            *(f"{count_text(count, 'seat')} of {shown(name)} did not play to the end: see `end` in "
              "scores.csv" for name, count in payoffs.failed.items())]
    if payoffs.mixed < len(names):
        head.append(f"the others have only {', '.join(names[:payoffs.mixed])}: equilibria with "
                    "other strategies were not searched")
    if not payoffs.deals:
        return "\n".join([*head, "NOT KNOWN: no deal has all of its profiles scored."]) + "\n"
    table = [["seats of " + " / ".join(names), *names]]
    table += [[text_of_profile(profile), *map(number_text, means)]
              for profile, means in zip(payoffs.profiles, payoffs.estimates())]
    samples = payoffs.samples()
    gained = [["a seat whose opponents all have", *(f"gains by {name}" for name in names)]]
    gained += [[name, *map(_gain_text, gains(payoffs.players, samples, mixture))]
               for name, mixture in zip(names, np.eye(payoffs.mixed).tolist())]
    return "\n".join([*head, "", *columns(table), "", *columns(gained), "",
                      *_of_equilibria(payoffs)]) + "\n"


def _best_response(payoffs: Payoffs) -> int:
    """The strategy that gains most in an equilibrium of those that rivals have; one of these where
    none gains."""
    means = payoffs.samples().mean(axis=0)
    if equilibria(SymmetricGame(payoffs.players, means[None], payoffs.mixed))[0]:
        return 0
    inner = equilibria(SymmetricGame(payoffs.players, means[None, :payoffs.mixed]))[0]
    mixture = inner[0] if inner else (1.0 / payoffs.mixed,) * payoffs.mixed
    values = SymmetricGame(payoffs.players, means, payoffs.mixed).values(mixture)
    return int(values.argmax())


def _searched(study: Study) -> Tuple[int, Payoffs]:
    """Plays the profiles that best responses lead to."""
    names, mixed = study.names, 1
    while True:
        status, rows = study.play(names, mixed)
        payoffs = Payoffs(names, study.players, rows, mixed)
        best = _best_response(payoffs) if payoffs.deals and status < 128 else 0
        if best < mixed:
            return status, payoffs
        tell(f"profiles: {names[best]} gains most: the others may have it, too")
        names = [*names[:mixed], names[best], *names[mixed:best], *names[best + 1:]]
        mixed += 1


def run(parser: Parser, given: argparse.Namespace) -> int:
    """Plays what is missing, or joins what was played, prints and writes; the exit status."""
    status = 0
    if given.join:
        payoffs = _joined(parser, given.agents)
        given.out.mkdir(parents=True, exist_ok=True)
    elif given.search:
        status, payoffs = _searched(Study(parser, given))
    else:
        study = Study(parser, given)
        status, rows = study.play(study.names, len(study.names))
        payoffs = Payoffs(study.names, study.players, rows)
    if status > 128:
        return status  # it was stopped
    failed = [f"{count_text(len(payoffs.incomplete), 'deal')} left out: not every profile was "
              "scored"] if payoffs.incomplete else []
    status = max(status, printed("profiles", _text_of(payoffs), failed))
    if payoffs.deals:
        write_whole(given.out / PAYOFFS, payoffs.as_csv().encode(), 0o666)
    return status
