"""The page of a played game: self-contained HTML, for a projector and a phone."""

import html
import json
from collections import defaultdict
from dataclasses import dataclass
from importlib.resources import files
from typing import Dict, Iterable, Iterator, List, Optional, Sequence, Tuple, Union

from geesefuton.records.games import (AUCTIONS, CLIENTS, FLIGHTS, GOODS, HOTELS, ROOMS, TICKETS,
                                      TICKS, Game, name_of)
from geesefuton.records.hindsight import Moment, Story
from geesefuton.records.logs import Log, Score, trades_of
from geesefuton.records.ticks import MarketEvent

# The style and the script of all pages, and the style and the script of reports.
_COLOURS, _OWN, _SHARED, _SCRIPT = (
    files(f"geesefuton.{room}").joinpath(name).read_text(encoding="ascii") for room, name in (
        ("network", "style.css"), ("records", "report.css"), ("network", "page.js"),
        ("records", "report.js")))
STYLE = f"<style>{_COLOURS}{_OWN}</style><script>{_SHARED}</script>"
SCRIPT = f"<script>\n{_SCRIPT}</script>"
Cell = Union[str, int]
KINDS: Tuple[Tuple[str, range], ...] = (("flights", FLIGHTS), ("Shanties", range(8, 12)),
                                        ("Towers", range(12, 16)), ("tickets", TICKETS))
Sums = Dict[Tuple[int, int, bool], Tuple[int, int]]  # agent, good, whether sold: units and dollars
ENDS = {"quit": "played to the end", "end": "left without quit", "readfault": "lost its link",
        "writefault": "lost its link", "budget": "used up its lines"}


@dataclass(frozen=True)
class Heading:
    """What stands at the head of the page."""

    game: str  # the name of the game file
    written: str  # when the log was written, in words
    warning: str = ""  # why the page may be wrong; "" if the log is sound


def is_idle(log: Log, agent: int) -> bool:
    """Whether nobody may have played a seat: it made no call, and did not say `quit`."""
    return log.calls_of(agent) == 0 and log.ends.get(agent) != "quit"


def ranks(log: Log) -> Dict[int, int]:
    """The rank of each agent that played: 1 plus how many of them have a greater score."""
    scores = {score.agent: score.score for score in log.scores
              if score.agent in log.seats and not is_idle(log, score.agent)}
    return {agent: 1 + sum(other > score for other in scores.values())
            for agent, score in scores.items()}


def sums_of(events: Sequence[MarketEvent]) -> Sums:
    """What each agent bought and sold of each good."""
    sums: Sums = defaultdict(lambda: (0, 0))
    for event in events:
        if event.agent is not None and event.units:
            key, count = (event.agent, event.good, event.units < 0), abs(event.units)
            units, dollars = sums[key]
            sums[key] = units + count, dollars + count * event.dollars
    return sums


def why_nothing(log: Log, events: Sequence[MarketEvent], score: Score) -> str:
    """Why an agent's trips are worth nothing; "" if they are worth something."""
    agent = score.agent
    if score.best:
        return ""
    if agent not in log.seats:
        return "no link had the seat"
    if log.calls_of(agent) == 0:
        return "made no call"
    held: Dict[str, int] = defaultdict(int)
    for (trader, good, is_sold), (units, _) in sums_of(events).items():
        if trader == agent:
            held[AUCTIONS[good].group] += -units if is_sold else units
    if not held:
        return "bought nothing"
    rooms = held["Shoreline Shanties"] + held["Tampa Towers"]
    missing = [name for name, units in (("seats in", held["Flights in"]),
                                        ("seats out", held["Flights out"]), ("rooms", rooms))
               if not units]
    return f"no {', no '.join(missing)}" if missing else "its goods make no trip"


def number(value: float) -> str:
    """A number as all reports have it, such as `−1,234`."""
    return f"{round(value):,}".replace("-", "−")


def half_text(half: Optional[float]) -> str:
    """Half the width of an interval, as it stands beside its middle; `?` where there is none."""
    return "?" if half is None else f"± {number(half)}"


def table(heads: Sequence[str], rows: Iterable[Sequence[Cell]], text: Sequence[int] = ()) -> str:
    """A table that scrolls in itself. Cells are numbers or HTML; the columns in `text` are aligned
    left."""
    def mark(column: int) -> str:
        return ' class="t"' if column in text else ""

    head = "".join(f"<th{mark(column)}>{name}</th>" for column, name in enumerate(heads))
    body = "".join("<tr>" + "".join(f"<td{mark(column)}>"
                                    f"{cell if isinstance(cell, str) else number(cell)}</td>"
                                    for column, cell in enumerate(row)) + "</tr>" for row in rows)
    return f'<div class="wide"><table><tr>{head}</tr>{body}</table></div>'


def bar(value: int, low: int, high: int) -> str:
    """A bar from 0 to a value, on a scale from `low`, at most 0, to `high`, above 0."""
    scale = 100 / (high - low)
    left = (min(value, 0) - low) * scale
    side = " less" if value < 0 else ""
    return (f'<span class="bar"><i class="zero" style="left:{-low * scale:.1f}%"></i>'
            f'<i class="fill{side}" style="left:{left:.1f}%;width:{abs(value) * scale:.1f}%"></i>'
            "</span>")


def _order(log: Log) -> List[Score]:
    """The rows of the sheet, the best first, and those without a rank last."""
    place = ranks(log)
    return sorted(log.scores, key=lambda score: (score.agent not in place, -score.score))


def _scores(names: Sequence[str], log: Log, events: Sequence[MarketEvent]) -> str:
    place = ranks(log)
    low = min([0, *(score.score for score in log.scores)])
    high = max([1, *(score.score for score in log.scores)])
    rows: List[List[Cell]] = []
    for score in _order(log):
        home = sum(package is None for package in score.packages)
        told = [why_nothing(log, events, score), ENDS.get(log.ends.get(score.agent, ""), "")]
        rows.append([place.get(score.agent, "–"), html.escape(names[score.agent]),
                     f"<b>{number(score.score)}</b>", bar(score.score, low, high), score.best,
                     score.cash, f"{home} of {CLIENTS}", score.short,
                     html.escape("; ".join(filter(None, told)))])
    heads = ["", "team", "score", "", "trips", "cash", "left home", "tickets<br>short",
             "how it went"]
    note = ("A score is what the trips are worth, plus the cash, less 200 for each ticket short. "
            "Equal scores share a rank; a seat that made no call and did not quit has none.")
    return f"<h2>Scores</h2>{table(heads, rows, (1, 8))}<p>{note}</p>"


def _spending(names: Sequence[str], log: Log, events: Sequence[MarketEvent]) -> str:
    sums, rows = sums_of(events), list[List[Cell]]()
    for agent in [score.agent for score in _order(log)]:
        paid = [sum(sums[agent, good, False][1] for good in goods) for _, goods in KINDS]
        earned = sum(sums[agent, good, True][1] for good in TICKETS)
        rows.append([html.escape(names[agent]), *paid, earned, earned - sum(paid)])
    heads = ["team", *(kind for kind, _ in KINDS), "tickets sold", "cash"]
    return f"<h2>What each team paid and earned</h2>{table(heads, rows, (0,))}"


def _tickets(events: Sequence[MarketEvent]) -> str:
    rows: List[List[Cell]] = []
    for good in TICKETS:
        prices = [event.dollars for event in events if event.good == good
                  for _ in range(event.units or 0)]
        rows.append([name_of(good), len(prices), min(prices), number(sum(prices) / len(prices)),
                     max(prices)] if prices else [name_of(good), 0, "–", "–", "–"])
    return ("<h2>Ticket prices</h2>"
            + table(["ticket", "traded", "lowest", "mean", "highest"], rows, (0,)))


PricePath = Sequence[Tuple[int, float]]  # ticks and dollars


def round_up(number: float, step: int) -> int:
    """The least multiple of a step that is not below a number."""
    return -int(-number // step) * step


def _chart(title: str, points: PricePath, low: int, high: int, steps: bool) -> str:
    """A small chart of one price over the ticks, with its labels in HTML, so that they keep their
    size.

    Args:
        title: What stands above it, as HTML.
        points: Ticks and dollars.
        low: The least dollars that are shown, and `high` the most.
        steps: Whether a price holds until the next point, and the last point has a dot.
    """
    def y(dollars: float) -> float:
        return 100 - 100 * (dollars - low) / (high - low)

    path = f"M{points[0][0]} {y(points[0][1]):.1f}"
    for tick, dollars in points[1:]:
        path += f"H{tick}V{y(dollars):.1f}" if steps else f"L{tick} {y(dollars):.1f}"
    grid = "".join(f"M0 {level}H{TICKS}" for level in (0, 50, 100))
    grid += "".join(f"M{tick} 0V100" for tick in range(0, TICKS + 1, 18))
    last, dollars = points[-1]
    dot = (f'<i class="dot" style="left:{last * 100 / TICKS:.1f}%;top:{y(dollars):.1f}%"></i>'
           if steps else "")
    return (f'<figure><figcaption>{title}</figcaption><div class="plot">'
            f'<svg viewBox="0 0 {TICKS} 100" preserveAspectRatio="none" aria-hidden="true">'
            f'<path class="grid" d="{grid}"/><path class="line" d="{path}"/></svg>{dot}'
            f'<span class="top">{number(high)}</span><span class="low">{number(low)}</span></div>'
            "</figure>")


def _scale_of(goods: range, prices: List[int]) -> Tuple[int, int]:
    """The least and the most dollars of the charts of flights, or of hotel nights, which begin at
    0."""
    if goods is HOTELS:
        return 0, round_up(max(100, *prices), 100)
    low = min(prices) // 50 * 50
    return low, max(round_up(max(prices), 50), low + 50)


def _prices(game: Game, events: Sequence[MarketEvent]) -> Iterator[str]:
    live = " In this game they publish with each bid, too." if game.live else ""
    yield ("<h2>Prices</h2><p>Dollars from tick 0 at the left to tick 54. Flights change at each "
           f"tick. Every six ticks hotels publish, and one closes, at the dot.{live}</p>")
    paths: Dict[int, List[Tuple[int, int]]] = defaultdict(list)
    for event in events:
        if event.what in ("price", "close") and event.tick is not None:
            paths[event.good].append((event.tick, event.dollars))
    for good in FLIGHTS:
        paths[good].append((TICKS, paths[good][-1][1]))
    for goods in (FLIGHTS, HOTELS):
        low, high = _scale_of(goods, [dollars for good in goods for _, dollars in paths[good]])
        for group in (goods[:4], goods[4:]):
            yield f'<h3>{AUCTIONS[group[0]].group}</h3><div class="charts">'
            for good in group:
                first, last = (number(paths[good][place][1]) for place in (0, -1))
                told = (f"night {AUCTIONS[good].day}: <b>{last} at tick "
                        f"{game.hotels[good - 8].closes}</b>" if good in HOTELS else
                        f"day {AUCTIONS[good].day}: <b>{first} to {last}</b>")
                yield _chart(told, paths[good], low, high, good in HOTELS)
            yield "</div>"


def _client_rows(game: Game, score: Score) -> Iterator[List[Cell]]:
    for place, (client, package) in enumerate(zip(game.clients[score.agent], score.packages), 1):
        trip: List[Cell] = ["stays at home", "", "", "", ""] if package is None else [
            ("Shanties", "Towers")[package.hotel], f"{package.arrive}–{package.depart}",
            *(night or "" for night in package.nights)]
        yield [place, f"{client.arrive}–{client.depart}", client.premium, *client.values, *trip,
               client.worth(package)]


def _trade_rows(events: Sequence[MarketEvent], agent: int) -> Iterator[List[Cell]]:
    """An agent's trades by good: units bought and sold, and the dollars paid and earned."""
    sums = sums_of(events)
    for good in GOODS:
        (bought, paid), (sold, earned) = (sums[agent, good, is_sold] for is_sold in (False, True))
        if bought or sold:
            yield [name_of(good), bought or "", paid if bought else "", sold or "",
                   earned if sold else "", earned - paid]


def _teams(game: Game, names: Sequence[str], log: Log, events: Sequence[MarketEvent],
           stories: Sequence[Story]) -> Iterator[str]:
    clients = ["client", "days", "Towers", "alligators", "park", "museum", "got", "days",
               "alligators", "park", "museum", "worth"]
    trades = ["good", "bought", "for", "sold", "for", "cash"]
    for place, score in enumerate(_order(log)):
        story = story_html(stories[score.agent]) if stories else ""
        yield (f'<details{"" if place else " open"}><summary>'
               f"<b>{html.escape(names[score.agent])}</b>: trips worth "
               f"{number(score.best)}, cash {number(score.cash)}, score {number(score.score)}"
               f"</summary>{story}"
               "<h3>What each client wanted, and got on which nights</h3>"
               f"{table(clients, _client_rows(game, score), (6,))}<h3>Trades</h3>"
               f"{table(trades, _trade_rows(events, score.agent), (0,))}</details>")


def story_html(story: Story) -> str:
    """A team's story."""
    told = "".join(f"<li>{html.escape(decision.text)}</li>" for decision in story.decisions)
    moments = json.dumps([_moment(moment) for moment in story.moments], separators=(",", ":"))
    note = ("A plan is worth what its trips bring, less what was paid and what is still to be "
            "bought at the prices of that tick. A log has no times: a trade of tickets may have "
            "come later than it says.")
    decisions = f"<ol>{told}</ol>" if told else "<p>No decision lowered the worth of its plans.</p>"
    return (f'<h3>What cost most</h3>{decisions}<h3>Tick by tick</h3><div class="story">'
            f'<label>Tick <input type="range" min="0" max="{TICKS}" value="{TICKS}"></label> '
            f'<output></output><div class="wide"><table><thead><tr><th class="t">good</th>'
            "<th>held</th><th>wanted more</th><th>bid</th></tr></thead><tbody></tbody></table>"
            f'</div><script type="application/json">{moments}</script></div><p>{note}</p>')


def _moment(moment: Moment) -> Dict[str, object]:
    goods = [[name_of(good), moment.held[good] or "", moment.wanted[good] or "",
              moment.bids.get(good, "")]
             for good in GOODS if moment.held[good] or moment.wanted[good] or good in moment.bids]
    return {"worth": moment.worth, "cash": moment.cash, "goods": goods}


def _head(game: Game, log: Log, heading: Heading) -> str:
    how = "over links" if log.kind == "serve" else "from a script or in turns"
    rooms = "" if game.rooms == (ROOMS,) * 8 else \
        f" Rooms: Shanties {' '.join(map(str, game.rooms[:4]))}, " \
        f"Towers {' '.join(map(str, game.rooms[4:]))}."
    missed = f" {log.missed} ticks lapsed." if log.missed else ""
    warning = f'<p class="warning">{html.escape(heading.warning)}</p>' if heading.warning else ""
    return (f"<h1>A game of TAC Classic</h1><p>{html.escape(heading.game)}, played {how}; the log "
            f"was written {html.escape(heading.written)}. {trades_of(log.histories)} trades.{rooms}"
            f"{missed} All prices are in dollars.</p>{warning}")


def page(game: Game, log: Log, events: Sequence[MarketEvent], heading: Heading,
         names: Sequence[str], stories: Sequence[Story] = ()) -> str:
    """The page of a game, with the prices and trades of its auctions (`ticks.all_events`), what
    the eight agents are called, and their stories, if there are any."""
    return document(f"A game of {html.escape(', '.join(names))}", [
        _head(game, log, heading), _scores(names, log, events), _spending(names, log, events),
        "".join(_prices(game, events)), _tickets(events), "<h2>Teams</h2>",
        *_teams(game, names, log, events, stories), *([SCRIPT] if stories else [])])


def document(title: str, parts: Iterable[str]) -> str:
    """A page that stands alone. All is given as HTML."""
    head = ('<!doctype html><html lang="en"><meta charset="utf-8">'
            '<meta name="viewport" content="width=device-width, initial-scale=1">'
            f"<title>{title}</title>{STYLE}")
    return "\n".join([head, *parts]) + "</html>\n"
