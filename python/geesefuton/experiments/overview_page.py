"""The sections of a run's overview, the page that shows them, HTML that stands alone, as the report
of a game, and its pictures for a paper, as SVG and PDF, each with the CSV behind it."""

import html
from importlib.util import find_spec
from pathlib import Path
from typing import Any, Dict, Iterator, List, NamedTuple

import numpy as np
import pandas as pd

from geesefuton.experiments.forms import count_text, letters_of, undecided
from geesefuton.experiments.joining import WAYS
from geesefuton.experiments.overview import PARTS, Overview
from geesefuton.experiments.results import Row
from geesefuton.experiments.comparisons import deals_to_detect
from geesefuton.experiments.summary import Difference, Summary
from geesefuton.processes import why
from geesefuton.records.report_page import Cell, bar, document, half_text, number, table

Frame = Any  # of pandas
HOW = ("pictures need matplotlib: install it by `apt-get install python3-matplotlib`, for "
       "/usr/bin/python3, or by `pip install matplotlib`")


class Section(NamedTuple):
    """A section of the overview."""

    name: str  # that of its picture
    title: str  # what stands above it
    note: str  # what it says, as HTML
    shown: Frame  # the data of the picture
    told: Frame  # the table, of numbers that are shown in whole dollars


def sections(overview: Overview) -> List[Section]:
    """The sections of an overview."""
    return [_parts(overview), _distances(overview), _efficiencies(overview)]


def page(overview: Overview, name: str, row: Row, summary: Summary) -> str:
    """The page of a run, by its figures, the name of its folder, one of its rows, and the summary
    of all of them."""
    agents = ", ".join(map(html.escape, overview.order))
    games, deals = len(overview.games), overview.seats.deal.nunique()
    parts = [
        f"<h1>Games of {agents}</h1><p>The folder {html.escape(name)}: {count_text(games, 'game')} "
        f"of {count_text(deals, 'deal')}, played {WAYS[row.kind]}. All amounts are in dollars.</p>",
        *_ranking(summary), *_differences(summary)]
    for each in sections(overview):
        rows = [[html.escape(name), *map(number, line)] for name, *line in each.told.itertuples()]
        parts += [f"<h2>{each.title}</h2><p>{each.note}</p>{_bars(each.shown)}",
                  table([each.told.index.name, *each.told], rows, (0,))]
    return document(f"Games of {agents}", parts)


def _bars(frame: Frame) -> str:
    """Bars of the values of each row, all on one scale."""
    numbers = frame.round().astype(int)
    low, high = min(0, int(numbers.min().min())), max(1, int(numbers.max().max()))
    rows = [[html.escape(str(name)), *(bar(value, low, high) for value in line)]
            for name, line in zip(numbers.index, numbers.to_numpy().tolist())]
    return table(["", *map(str, numbers)], rows, range(len(numbers.columns) + 1))


def _ranking(summary: Summary) -> Iterator[str]:
    yield ("<h2>Ranking</h2><p>Mean scores with 95 % intervals (Student's t, by deals). These "
           "games do not separate agents that have a letter in common: Holm's test over all pairs "
           "finds no difference.</p>")
    told = [(standing, standing.score.half or 0.0) for standing in summary.standings]
    low = min((standing.score.mean - half for standing, half in told), default=0.0)
    high = max((standing.score.mean + half for standing, half in told), default=1.0)
    scale = 100 / max(1.0, high - low)  # of a picture that has at least a dollar
    rows: List[List[Cell]] = []
    for rank, (standing, half) in enumerate(told, 1):
        mean = standing.score.mean
        left, middle = ((each - low) * scale for each in (mean - half, mean))
        picture = (f'<span class="bar"><i class="fill" style="left:{left:.1f}%;'
                   f'width:{2 * half * scale:.1f}%"></i>'
                   f'<i class="zero" style="left:{middle:.1f}%"></i></span>')
        rows.append([rank, html.escape(standing.agent), f"<b>{number(mean)}</b>",
                     half_text(standing.score.half), letters_of(summary, standing.agent), picture,
                     standing.seats, standing.failed or "–"])
    yield table(["", "agent", "mean", "", "groups", f"{number(low)} to {number(high)}", "seats",
                 "not played<br>to the end"], rows, (1, 4))


def _differences(summary: Summary) -> Iterator[str]:
    yield ("<h2>Differences</h2><p>How much more an agent scored than another, with its 95 % "
           "interval, the interval that allows for all pairs (Bonferroni), and the probability of "
           "such a difference by chance, which also allows for all pairs (Holm). For neighbours in "
           "the ranking: how many deals more would show such a difference in 80 % of studies, for "
           "the largest spread that these games leave possible.</p>")
    names = [standing.agent for standing in summary.standings]
    neighbours, others = list[List[Cell]](), list[List[Cell]]()
    for pair in summary.differences:
        near = names.index(pair.second) - names.index(pair.first) == 1
        cells: List[Cell] = [html.escape(f"{pair.first} less {pair.second}")]
        if pair.score is None:
            cells += ["not compared", "", "", "", 0]
        else:
            cells += [f"<b>{number(pair.score.mean)}</b>", half_text(pair.score.half),
                      half_text(pair.bonferroni),
                      "?" if pair.holm is None else f"{pair.holm:.3f}", pair.score.count]
        (neighbours if near else others).append(cells + ([_more_deals(pair)] if near else []))
    heads = ["", "mean", "", "all pairs", "p (Holm)", "deals"]
    if neighbours:
        yield table([*heads, "deals more"], neighbours, (0,))
    if others:
        yield f"<details><summary>All other pairs</summary>{table(heads, others, (0,))}</details>"
    yield "".join(f"<p>{html.escape(line)}.</p>" for line in undecided(summary))


def _more_deals(pair: Difference) -> Cell:
    if pair.is_shown:
        return "separated"
    if pair.score is None or pair.score.half is None or not pair.score.mean:
        return "?"
    return max(1, (deals_to_detect(pair.score, abs(pair.score.mean)) or 0) - pair.score.count)


def _parts(overview: Overview) -> Section:
    seats = overview.seats.groupby("agent")
    means = seats[["score", *PARTS]].mean().loc[overview.order]
    told = means.copy()
    told.insert(0, "seats", seats.size())
    return Section("parts", "The parts of scores", (
        "Means over an agent's seats: what the trips are worth, what was earned less what was paid "
        "for each kind of goods, and 200 for each ticket short. The score is their sum."),
        means[PARTS], told)


def _distances(overview: Overview) -> Section:
    found = overview.seats.groupby("agent").distance.agg(
        ["size", "mean", "min", "median", "max"]).loc[overview.order]
    found.columns = ["seats", "mean", "least", "median", "most"]
    return Section("distances", "The distance to the best plan at closing prices", (
        "How far a seat's score is below the worth of its best plan, if the plan bought what it "
        "lacks at the last prices of flights and rooms and the mean prices of tickets. A score "
        "with a distance below 0 is better, for example because flights became dearer later."),
        found[["mean"]].rename(columns={"mean": "mean distance"}), found)


def _efficiencies(overview: Overview) -> Section:
    games = overview.games.assign(rate=100 * overview.games.had
                                  / overview.games.best.replace(0, np.nan)).groupby("agents")
    found = games.rate.agg(["size", "mean", "min", "max"]).fillna(0)
    told = pd.concat([found, games[["had", "best", "bound"]].mean()], axis=1)
    told.columns = ["games", "mean, in %", "least", "most", "worth", "best known", "bound"]
    return Section("efficiencies", "Efficiency over the 64 clients", (
        "The worth of all trips of a game, less the cost of all seats at the flights' first prices "
        "and 200 for each ticket short, as a share of the best known allocation of its rooms and "
        "tickets to its 64 clients. No allocation is worth more than the bound."),
        told[["mean, in %"]].rename(columns={"mean, in %": "efficiency in %"}), told)


def _pictures(overview: Overview, summary: Summary) -> Dict[str, Frame]:
    """The data of each picture by its name, also of the ranking and the differences."""
    standings = summary.standings[::-1]
    ranking = pd.DataFrame([(each.score.mean, each.score.half) for each in standings],
                           [each.agent for each in standings], ["mean", "half"], float)
    pairs = [each for each in summary.differences[::-1] if each.score]
    differences = pd.DataFrame(
        [(each.score.mean, each.score.half, each.bonferroni, each.holm) for each in pairs
         if each.score], [f"{each.first} less {each.second}" for each in pairs],
        ["mean", "half", "all_pairs_half", "holm_p"], float)
    return {"ranking": ranking, "differences": differences,
            **{each.name: each.shown for each in sections(overview)}}


def write_figures(folder: Path, overview: Overview, summary: Summary) -> List[str]:
    """Writes NAME.csv, NAME.svg and NAME.pdf for each picture that has data, and gives what failed.
    The folder is made if it is not there; its files of these names are replaced."""
    can_draw = find_spec("matplotlib") is not None
    try:
        folder.mkdir(parents=True, exist_ok=True)
        for name, frame in _pictures(overview, summary).items():
            if len(frame):
                frame.to_csv(folder / f"{name}.csv", index_label="of")
                if can_draw:
                    _draw(frame, folder / name)
    except OSError as fault:
        return [f"{fault.filename or folder}: {why(fault)}"]
    return [] if can_draw else [HOW]


def _draw(frame: Frame, file: Path) -> None:
    import matplotlib
    matplotlib.use("Agg")
    from matplotlib import pyplot
    matplotlib.rcParams["svg.hashsalt"] = file.name  # so that the same data give the same file
    figure, axes = pyplot.subplots(figsize=(7.0, 2.0 + 0.3 * min(40, len(frame))))
    names = [str(name).replace("$", r"\$") for name in frame.index]
    if "half" in frame:
        axes.errorbar(frame["mean"], names, xerr=frame["half"].fillna(0.0), fmt="o", capsize=3)
    else:
        frame.set_axis(names, axis=0).plot.barh(ax=axes, stacked=file.name == "parts")
    axes.set_title(file.name)
    for suffix, told in ((".svg", {"Date": None}), (".pdf", {"CreationDate": None})):
        figure.savefig(file.with_suffix(suffix), bbox_inches="tight", metadata=told)
    pyplot.close(figure)
