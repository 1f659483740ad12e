"""Writes results for other programs and for readers: CSV, the properties of Downward Lab, and a
page with plots."""

from __future__ import annotations

import base64
import csv
import html
import io
import itertools
import json
import pathlib
import sys
import typing

from . import packages
from .results import Results
from .tables import (grouped, in_order, is_solved, is_ungrounded, rows_by_domain, rows_by_task,
                     task_key)
from .work import Record

COLUMNS = ("domain", "task", "kind", "row", "swamp", "reachable", "column", "answer", "cost",
           "bound", "steps", "certified", "expansions", "rows", "wall_s", "cpu_s", "mib", "note",
           "status", "certificate", "certificate_bytes", "certificate_sha256", "check_proved",
           "check_proved_s", "check_second", "check_second_s", "said", "key")
# What Downward Lab calls the ends of runs.
ERRORS = {"plan": "success", "none": "search-unsolvable", "stopped": "search-out-of-budget",
          "memory": "search-out-of-memory", "time": "search-out-of-time",
          "refused": "translate-input-error", "signal": "search-critical-error",
          "failed": "search-critical-error"}
STYLE = """body { font: 15px/1.5 system-ui, sans-serif; margin: 2rem auto; max-width: 70rem;
 padding: 0 1rem; color: #222; background: #fff }
table { border-collapse: collapse; margin: 1rem 0; font-variant-numeric: tabular-nums }
th, td { padding: .2rem .7rem; border-bottom: 1px solid #ddd; text-align: right }
th:nth-child(-n+2), td:nth-child(-n+2) { text-align: left }
img { max-width: 100% } .scroll { max-height: 40rem; overflow: auto }"""


def error_of(record: Record) -> str:
    return "translate-out-of-budget" if is_ungrounded(record) else ERRORS[record["answer"]]


def write_report(results: Results) -> typing.List[pathlib.Path]:
    """The files that were written."""
    records = in_order(results.read())
    texts = {"results.csv": csv_of(records), "properties": properties_of(records),
             "report.html": page_of(results, records)}
    for name, text in texts.items():
        (results.folder / name).write_text(text, encoding="utf-8")
    return [results.folder / name for name in texts]


def csv_of(records: typing.Sequence[Record]) -> str:
    """A line a run; a column is empty where nothing is known."""
    text = io.StringIO()
    writer = csv.DictWriter(text, COLUMNS, extrasaction="ignore", lineterminator="\n")
    writer.writeheader()
    writer.writerows(records)
    return text.getvalue()


def properties_of(records: typing.Sequence[Record]) -> str:
    """Runs by their names, with the attributes of Downward Lab: memory in KiB, times in seconds."""
    found = {}
    for record in records:
        problem = record["task"].partition(":")[2] or record["task"]
        identity = [record["column"], record["domain"], problem]
        properties = {
            "id": identity, "algorithm": record["column"], "domain": record["domain"],
            "problem": problem, "run_dir": "runs", "error": error_of(record),
            "coverage": int(record["answer"] == "plan"),
            "unsolvable": int(record["answer"] == "none"),
            "planner_exit_code": record["status"], "node": record["host"],
            "total_time": record["cpu_s"], "planner_wall_clock_time": record["wall_s"],
            "memory": record["mib"] and round(1024 * record["mib"]), "cost": record.get("cost"),
            "plan_length": record.get("steps"), "expansions": record.get("expansions"),
            "cost_bound_below": record.get("bound"), "certificate_rows": record.get("rows"),
            "certified": record.get("certified") and int(record["certified"])}
        found["-".join(identity)] = {name: value for name, value in properties.items()
                                     if value is not None}
    return json.dumps(found, indent=1, sort_keys=True) + "\n"


def page_of(results: Results, records: typing.Sequence[Record]) -> str:
    settings = (results.folder / "suite.json").read_text(encoding="utf-8")
    plots = "".join(f'<p><img alt="{html.escape(name)}" src="data:image/svg+xml;base64,'
                    f'{base64.b64encode(picture).decode()}"></p>\n'
                    for name, picture in plots_of(records))
    return (f"<!doctype html>\n<html lang=en><meta charset=utf-8><title>Results of "
            f"{html.escape(results.folder.name)}</title>\n<style>{STYLE}</style>\n"
            f"<h1>Results of {html.escape(results.folder.name)}</h1>\n"
            "<p>Means are geometric, over the tasks that all columns solved. A run is certified if "
            "each checker that was asked for accepted its certificate with the printed cost and "
            f"bound.</p>\n{table_of(rows_by_domain(records))}{plots}"
            f"<h2>Runs</h2>\n<div class=scroll>{table_of(rows_by_task(records))}</div>\n"
            f"<h2>Settings</h2>\n<pre>{html.escape(settings)}</pre>\n</html>\n")


def table_of(rows: typing.Sequence[typing.Sequence[str]]) -> str:
    head, *body = [[html.escape(cell) for cell in row] for row in rows]
    lines = ["<tr><th>" + "<th>".join(head)]
    lines += ["<tr><td>" + "<td>".join(row) for row in body]
    return "<table>\n" + "\n".join(lines) + "\n</table>\n"


def plots_of(records: typing.Sequence[Record]) -> typing.Iterator[typing.Tuple[str, bytes]]:
    """The plots as SVG, or none and a line if matplotlib isn't there."""
    try:
        matplotlib = packages.load("matplotlib")
        matplotlib.use("svg")
        pyplot = packages.load("matplotlib.pyplot")
    except packages.Missing as missing:
        print(f"suite: no plots: {missing}", file=sys.stderr)
        return
    yield "solved tasks by time", cactus(pyplot, records)
    for one, other in itertools.combinations(grouped(records, "column"), 2):
        pairs = pairs_of(records, one[0], other[0])
        if pairs:
            yield f"{one[0]} and {other[0]}", scatter(pyplot, one[0], other[0], pairs)


def cactus(pyplot: typing.Any, records: typing.Sequence[Record]) -> bytes:
    """How many tasks each column solved within a time."""
    figure, axes = pyplot.subplots(figsize=(8, 4.5), layout="constrained")
    marks = itertools.cycle("os^vDPX")
    for ((column,), group), mark in zip(grouped(records, "column").items(), marks):
        times = sorted(record["cpu_s"] for record in group if is_solved(record))
        axes.plot(times, range(1, len(times) + 1), marker=mark, markersize=3, linewidth=1.2,
                  label=f"{column} ({len(times)} of {len(group)} solved)")
    axes.set(xscale="log", xlabel="processor time, s", ylabel="tasks solved within this time")
    axes.grid(alpha=0.3)
    axes.legend(frameon=False)
    return svg_of(pyplot, figure)


def pairs_of(records: typing.Sequence[Record], one: str, other: str
             ) -> typing.List[typing.Tuple[Record, Record]]:
    """The runs of two columns on the tasks that both solved."""
    first, second = ({task_key(record): record for record in records
                      if record["column"] == column and is_solved(record)}
                     for column in (one, other))
    return [(first[key], second[key]) for key in first if key in second]


def scatter(pyplot: typing.Any, one: str, other: str,
            pairs: typing.Sequence[typing.Tuple[Record, Record]]) -> bytes:
    """Time of two columns task by task, and expansions and rows if both have them."""
    readings = [("processor time, s", "cpu_s"), ("expansions", "expansions"),
                ("rows of the certificate", "rows")]
    shown = [(name, field) for name, field in readings
             if any(field in first and field in second for first, second in pairs)]
    figure, all_axes = pyplot.subplots(1, len(shown), figsize=(4.2 * len(shown), 4.2),
                                       layout="constrained", squeeze=False)
    for axes, (name, field) in zip(all_axes[0], shown):
        both = [(first[field], second[field]) for first, second in pairs
                if field in first and field in second]
        points = [[max(value, 1e-3) for value in values] for values in zip(*both)]
        limits = [min(map(min, points)) * 0.8, max(map(max, points)) * 1.25]
        axes.scatter(*points, s=10, alpha=0.6)
        axes.plot(limits, limits, linewidth=0.8, color="grey")
        axes.set(xscale="log", yscale="log", xlabel=f"{name}: {one}", ylabel=f"{name}: {other}",
                 aspect="equal")
        axes.grid(alpha=0.3)
    return svg_of(pyplot, figure)


def svg_of(pyplot: typing.Any, figure: typing.Any) -> bytes:
    picture = io.BytesIO()
    figure.savefig(picture, format="svg")
    pyplot.close(figure)
    return picture.getvalue()
