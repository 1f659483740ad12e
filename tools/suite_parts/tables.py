"""Tables of results, and what contradicts what in them."""

from __future__ import annotations

import collections
import math
import typing

from .tasks import natural
from .work import Record

Row = typing.Sequence[str]
REASONS = {"stopped": "budget", "memory": "memory", "time": "time", "refused": "input",
           "signal": "signal", "failed": "failed"}


def is_solved(record: Record) -> bool:
    return record["answer"] in ("plan", "none")


def claim(record: Record) -> str:
    """What is known of the task: a cost, two bounds of it, that there is no plan, or a reason."""
    if record["answer"] == "plan":
        cost, bound = record["cost"], record.get("bound")
        if bound is None:
            return f"at most {cost}"
        return str(cost) if bound == cost else f"{bound} to {cost}"
    if is_ungrounded(record):
        return "grounding"
    return "none" if record["answer"] == "none" else REASONS.get(record["answer"], "failed")


def is_ungrounded(record: Record) -> bool:
    """Whether grounding stopped, and not the search at its budget."""
    return record["answer"] == "stopped" and record.get("said") == "stopped grounding"


def not_certified(records: typing.Sequence[Record]) -> typing.List[str]:
    """The runs whose certificate a checker didn't accept as what was printed."""
    return [f"NOT CERTIFIED: {record['task']}, {record['column']}"
            for record in in_order(records) if record.get("certified") is False]


def contradictions(records: typing.Sequence[Record]) -> typing.List[str]:
    """The tasks of which two columns say what can't both be true."""
    found = []
    for task, group in grouped(records, "task", "domain").items():
        bounds = [record for record in group if "bound" in record]
        plans = [record for record in group if record["answer"] == "plan"]
        nones = [record for record in group if record["answer"] == "none"]
        for low in bounds:
            found += [f"CONTRADICTION: {task[0]}: {low['column']} says that no plan costs less than "
                      f"{low['bound']}, and {plan['column']} has one of {plan['cost']}"
                      for plan in plans if plan["cost"] < low["bound"] and same_task(low, plan)]
        found += [f"CONTRADICTION: {task[0]}: {none['column']} says that there is no plan, and "
                  f"{plan['column']} has one" for none in nones for plan in plans]
    return found


def same_task(one: Record, other: Record) -> bool:
    """With swamp the same files spell another task."""
    return one["swamp"] == other["swamp"]


def grouped(records: typing.Iterable[Record], *names: str
            ) -> typing.Dict[typing.Tuple, typing.List[Record]]:
    found = collections.defaultdict(list)
    for record in records:
        found[tuple(record[name] for name in names)].append(record)
    return dict(found)


def geometric_mean(values: typing.Iterable[typing.Optional[float]]) -> typing.Optional[float]:
    known = [max(value, 1e-4) for value in values if value is not None]
    return math.exp(sum(map(math.log, known)) / len(known)) if known else None


def show(records: typing.Sequence[Record], is_by_task: bool, is_markdown: bool) -> str:
    if not records:
        return "no results\n"
    head, *body = rows_by_task(records) if is_by_task else rows_by_domain(records)
    return markdown(head, body) if is_markdown else aligned(head, body)


def in_order(records: typing.Iterable[Record]) -> typing.List[Record]:
    """By domain, task and column, in whatever order they ended."""
    return sorted(records, key=lambda record: [natural(record[name])
                                               for name in ("domain", "task", "column")])


def rows_by_task(records: typing.Sequence[Record]) -> typing.List[Row]:
    head = ["task", "column", "cost", "steps", "certified", "expansions", "rows", "ms", "MiB"]
    records = in_order(records)
    body = [[record["task"], record["column"], claim(record), number(record.get("steps")),
             verdict(record), number(record.get("expansions")), number(record.get("rows")),
             number(1000 * record["cpu_s"], 1), number(record.get("mib"), 0)] for record in records]
    if any(record["kind"] == "grid" for record in records):
        head.insert(3, "stated length")
        for row, record in zip(body, records):
            row.insert(3, record["note"])
    return [head, *body]


def verdict(record: Record) -> str:
    return {True: "yes", False: "NO", None: ""}[record.get("certified")]


def rows_by_domain(records: typing.Sequence[Record]) -> typing.List[Row]:
    """A line for each domain and column, and at the end for all domains. Means are over the tasks
    that all columns solved, so that they compare like with like."""
    records, common = in_order(records), solved_by_all(records)
    groups = [*grouped(records, "domain", "column").items(),
              *((("all", key[0]), group) for key, group in grouped(records, "column").items())]
    rows: typing.List[Row] = [["domain", "column", "tasks", "plans", "none", "not solved",
                               "certified", "ms", "MiB", "expansions", "rows"]]
    for (domain, column), group in groups:
        alike = [record for record in group if task_key(record) in common]
        means = [geometric_mean(map(reading, alike)) for reading in (
            lambda record: 1000 * record["cpu_s"], lambda record: record.get("mib"),
            lambda record: record.get("expansions"), lambda record: record.get("rows"))]
        rows.append([
            domain, column, str(len(group)), count(group, "plan"), count(group, "none"),
            reasons(group), number(sum(bool(record.get("certified")) for record in group)),
            number(means[0], 1), *(number(mean, 0) for mean in means[1:])])
    return rows


def task_key(record: Record) -> typing.Tuple:
    return record["domain"], record["task"], record["kind"]


def solved_by_all(records: typing.Sequence[Record]) -> typing.Set[typing.Tuple]:
    """The tasks that were solved by every column that met them, but for columns that solved
    nothing at all."""
    able = {record["column"] for record in records if is_solved(record)}
    groups = collections.defaultdict(list)
    for record in records:
        if record["column"] in able:
            groups[task_key(record)].append(is_solved(record))
    return {key for key, solved in groups.items() if all(solved)}


def count(group: typing.Sequence[Record], answer: str) -> str:
    return str(sum(record["answer"] == answer for record in group))


def reasons(group: typing.Sequence[Record]) -> str:
    """How many runs ended without an answer, by reason."""
    found = collections.Counter(claim(record) for record in group if not is_solved(record))
    return ", ".join(f"{times} {reason}" for reason, times in sorted(found.items()))


def number(value: typing.Optional[float], digits: int = 0) -> str:
    return "" if value is None else f"{value:,.{digits}f}"


def markdown(head: Row, body: typing.Sequence[Row]) -> str:
    lines = [head, ["---"] * len(head), *body]
    return "".join(f"| {' | '.join(cell.replace('|', chr(92) + '|') for cell in line)} |\n"
                   for line in lines)


def aligned(head: Row, body: typing.Sequence[Row]) -> str:
    widths = [max(len(row[at]) for row in [head, *body]) for at in range(len(head))]
    lines = []
    for row in [head, *body]:
        cells = [cell.ljust(width) if at < 2 else cell.rjust(width)
                 for at, (cell, width) in enumerate(zip(row, widths))]
        lines.append("  ".join(cells).rstrip() + "\n")
    return "".join(lines)
