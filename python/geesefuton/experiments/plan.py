"""The plan of a tournament, read from its command line."""

import argparse
import getpass
import os
import platform
from collections import Counter
from dataclasses import dataclass, field, replace
from pathlib import Path
from typing import Dict, List, Mapping, Optional, Sequence, Tuple

from geesefuton import program
from geesefuton.arguments import Parser, seconds, whole
from geesefuton.experiments.agents import FILTER, PATIENCE, Limits, folder_of, why_not
from geesefuton.experiments.deals import (SHORT, Rule, Table, kept_secret, made_deal,
                                          read_rooms)
from geesefuton.experiments.entrants import Entrant, read_entrants, refuse_twins
from geesefuton.experiments.provenance import (Agent, agent_of, digest_of, names_text,
                                               package_digest)
from geesefuton.experiments.seating import MOST, Seating
from geesefuton.experiments.turns import MOST_TURNS
from geesefuton.processes import tell, why
from geesefuton.records.drawing import MOST_SEED
from geesefuton.records.games import ROOMS, SEATS, TICKS
from geesefuton.records.secret_deals import new_secret

CLASSIC = "classic"
MARGIN = 300.0  # seconds that a game may take beyond what it is given, on a machine that is full
PACE = 100  # milliseconds
LINGER, LINGER_IN_TURNS = 5.0, 30.0  # seconds


@dataclass(frozen=True)
class Plan:
    """The plan of a tournament."""

    entrants: Sequence[Entrant]  # the agents, and after them those of the pool
    rule: Rule  # how deals are made
    games: int  # how many games are played
    rotations: int  # how many of each deal
    at_once: int  # how many at a time
    pace: int  # the milliseconds from tick to tick, in games by the clock
    turns: int  # how many turns each agent has between two ticks; 0 for games by the clock
    patience: float  # in turns: the seconds without a word after which an agent is passed over
    form: str  # what agents speak, `words` or `json`
    start: float  # the seconds that a game waits for its agents
    linger: float  # the seconds after the last tick until links are ended
    out: Path  # the folder that the run stands in
    seating: Seating  # who sits where, by the numbers of the agents
    is_resumed: bool = False  # whether it goes on with what is there
    # what else decides what can be compared
    settings: Mapping[str, object] = field(default_factory=dict)
    agents: Mapping[str, Agent] = field(default_factory=dict)  # what the agents are, by their names
    # the agents of the eight seats in each game of a deal, where these are no seating; each deal
    # moves them on
    lineups: Sequence[Sequence[Entrant]] = ()
    limits: Optional[Limits] = None  # what each agent may use; None if agents are not kept apart

    def seated(self, table: Table) -> List[Entrant]:
        """The agents of the eight seats of a game."""
        deal, rotation = table.deal.number - 1, table.rotation
        if self.lineups:
            lineup = self.lineups[rotation]
            return [lineup[(deal + seat) % SEATS] for seat in range(SEATS)]
        return [self.entrants[number] for number in self.seating.game(deal, rotation)]

    @property
    def is_in_step(self) -> bool:
        """Whether all games of a deal are played at the same time and go in step (`turns`)."""
        return bool(self.turns and self.limits) and self.rotations <= SEATS

    def seconds(self) -> float:
        """The seconds that a game may take, and in turns those until it has its next tick."""
        asked = self.turns * SEATS * self.patience if self.turns else TICKS * self.pace / 1000
        return self.start + asked + self.linger + MARGIN


def add_playing(parser: Parser, games: str) -> None:
    """Adds the words that say how many `games` are played, as its help tells, which, and how."""
    add = parser.add_argument
    add("--games", type=whole(1), metavar="N", help=games)
    add("--seed", type=whole(0, MOST_SEED), metavar="N", help="use deals of the seeds N, N + 1, ..")
    add("--rooms", type=read_rooms, metavar="N..M", help="draw the rooms of a night (default: 16)")
    add("--live", action="store_true", help="let hotel prices move with each bid")
    add("--endow", choices=(CLASSIC,), help="endow tickets in clumps, as in the original game")
    add("--at-once", type=whole(1), default=os.cpu_count() or 1, metavar="N",
        help="games at a time (default: one for each processor)")
    add("--pace", type=whole(1, 60000), metavar="MILLISECONDS",
        help=f"the time from tick to tick (default: {PACE})")
    add("--turns", type=whole(1, MOST_TURNS), default=0, metavar="R",
        help="no clock: R requests of each agent between two ticks")
    add("--patience", type=seconds, metavar="SECONDS",
        help=f"in turns: longest silence of an agent (default: {PATIENCE:g})")
    add("--json", action="store_true", help="let agents send JSON objects instead of words")
    add("--apart", action=argparse.BooleanOptionalAction,
        help="keep agents from all that is not theirs, by `bwrap`")
    add("--memory", type=whole(16), default=1024, metavar="MEGABYTES",
        help="data of a process that is kept apart (default: 1024)")
    add("--processes", type=whole(2), default=64, metavar="N",
        help="at a time, of an agent that is kept apart (default: 64)")
    add("--processor", type=whole(1), default=600, metavar="SECONDS",
        help="processor time of a process kept apart (default: 600)")
    add("--start", type=seconds, default=20.0, metavar="SECONDS",
        help="wait this long for the agents of a game (default: 20)")
    add("--after", type=seconds, metavar="SECONDS",
        help=f"close links after the end (default: {LINGER:g}, in turns {LINGER_IN_TURNS:g})")
    add("--files", action="append", default=[], metavar="PATTERN",
        help="an agent's own files, as '*.py' (default: its folder)")
    add("--resume", action="store_true", help="play what FOLDER lacks, with the same words")
    parser.set_defaults(against=[], summary=None)


def make_parser(description: Optional[str]) -> Parser:
    """The parser of the command, whose help begins with the description."""
    parser = Parser("tournament", description or "")
    add = parser.add_argument
    add("agents", nargs="+", metavar="AGENT", help="a Python file, a program, or a quoted command")
    add_playing(parser, "N games, rounded up to fair rounds (default: 4 or more)")
    add("--against", action="append", default=[], metavar="AGENT",
        help="play each alone among these agents, in each seat")
    add("--plan", action="store_true", help="only print who would sit where, and how fair it is")
    add("--out", type=Path, metavar="FOLDER", help="keep settings, scores and games here")
    add("--summary", type=Path, metavar="FILE", help="also write the summary to this file, as JSON")
    add("--detect", type=whole(1), metavar="DOLLARS", help="tell how many games detect so much")
    add("--join", action="store_true", help="play nothing: AGENT .. are runs to summarize")
    add("--pool", action="store_true", help="with --join: also runs that do not belong together")
    add("--partial", action="store_true", help="with --join: take deals that were played whole")
    return parser


def _entrants(parser: Parser, given: argparse.Namespace) -> Tuple[List[Entrant], int]:
    """The agents with those of the pool, and how many of them are in it."""
    entrants = read_entrants([*given.agents, *given.against])
    own, pool = entrants[:len(given.agents)], entrants[len(given.agents):]
    refuse_twins(own)
    if len(own) > MOST:
        parser.error(f"{len(own)} agents: at most {MOST} play in a tournament")
    return [*own, *(replace(each, name=f"{each.name} (pool)") for each in pool)], len(pool)


def read_plan(parser: Parser, given: argparse.Namespace, are_deals: bool = False) -> Plan:
    """The plan of a command line; ends with status 2 where there is none. If the number of games
    is one of deals, each has one game."""
    if given.turns and given.pace is not None:
        parser.error("--pace is for games with a clock, and --turns for games without one")
    if given.patience is not None and not given.turns:
        parser.error("--patience needs --turns")
    try:
        entrants, pool = _entrants(parser, given)
        secret = str(given.seed).encode() if given.seed is not None else \
            given.resume and given.out and kept_secret(given.out) or new_secret()
        rule = Rule(secret, given.seed, given.rooms, given.live, given.endow == CLASSIC)
        made_deal(rule, 1)  # tells whether deals can be made
        tac = digest_of(Path(program.find()))
        agents = {entrant.name: agent_of(entrant, given.files, given.summary)
                  for entrant in entrants}
    except program.CommandError as fault:
        parser.error(str(fault))
    except OSError as fault:
        parser.error(f"{fault.filename}: {why(fault)}")
    seating = Seating(len(entrants) - pool, pool)
    rotations = 1 if are_deals else seating.games
    games = given.games or max(4, rotations * seating.round)
    if games % rotations:
        games += rotations - games % rotations
        tell(f"playing {games} games, so that each deal is played {rotations} times")
    if given.seed is not None and given.seed + games // rotations - 1 > MOST_SEED:
        parser.error(f"seeds are at most {MOST_SEED}")
    linger = LINGER_IN_TURNS if given.turns else LINGER
    plan = Plan(entrants, rule, games, rotations, given.at_once, given.pace or PACE, given.turns,
                PATIENCE if given.patience is None else given.patience,
                "json" if given.json else "words", given.start,
                linger if given.after is None else given.after, given.out or Path(), seating,
                given.resume, {}, agents, limits=_limits(parser, given, entrants))
    return replace(plan, settings=_settings(plan, pool, tac))


def _limits(parser: Parser, given: argparse.Namespace,
            entrants: Sequence[Entrant]) -> Optional[Limits]:
    """What agents may use that are kept apart; None if they are not."""
    if given.apart is False:
        return None
    fault = why_not()
    if fault and given.apart:
        parser.error(f"--apart: {fault}")
    if fault:
        tell(f"agents can read what {getpass.getuser()} can, and end each other's processes: "
             f"{fault}")
        return None
    try:
        folders = Counter(folder_of(entrant, [given.out or Path("run")]) for entrant in entrants)
    except ValueError as refused:
        parser.error(f"{refused} (or give --no-apart)")
    if not FILTER:
        tell("agents keep the system calls that tell of other games: those of this machine are not "
             "known")
    for folder in [folder for folder, count in folders.items() if folder and count > 1][:1]:
        tell(f"agents that stand in one folder, such as {folder}, see each other's files: give "
             "each a folder of its own")
    return Limits(given.memory << 20, given.processes, given.processor)


def _settings(plan: Plan, pool: int, tac: str) -> Dict[str, object]:
    """What decides, beside the deals, what can be compared with the results of a plan, of whose
    agents some are in the pool."""
    rule = plan.rule
    names = [entrant.name for entrant in plan.entrants]
    pace: Dict[str, object] = {"turns": plan.turns} if plan.turns else {"pace": plan.pace}
    told: Dict[str, object] = {
        "agents": names_text(names[:len(names) - pool]),
        "against": names_text(names[len(names) - pool:]), "rotations": plan.rotations, **pace,
        "rooms": "{}..{}".format(*(rule.rooms or (ROOMS, ROOMS))), "live": str(rule.live).lower(),
        "endow": CLASSIC if rule.is_clumped else "",
        "apart": "{}/{}/{}".format(*plan.limits) if plan.limits else "",
        "form": plan.form, "start": f"{plan.start:g}", "after": f"{plan.linger:g}",
        "python": ".".join(platform.python_version_tuple()[:2]),
        "tac": tac[:SHORT], "package": package_digest()[:SHORT]}
    return {name: value for name, value in told.items() if value != ""}


def text_of(plan: Plan) -> str:
    """Who would sit where in a plan, and how equal that is."""
    seating, deals = plan.seating, plan.games // plan.rotations
    lines = [" ".join([f"{deal + 1}.{rotation}", *(
        plan.entrants[number].name.replace(" ", "_") for number in seating.game(deal, rotation))])
             for deal in range(deals) for rotation in range(plan.rotations)]
    lines.append(f"{plan.games} games of {deals} deals")
    lines += [f"{what}: {least}" + (f" to {most}" if most > least else "")
              for what, (least, most) in seating.counts(deals).items()]
    if deals % seating.round:
        lines.append(f"all is as equal as it can be after each {seating.round * plan.rotations} "
                     "games")
    return "\n".join(lines) + "\n"
