"""Compares the plans of prepared problems with a search over the meaning of the original."""

from __future__ import annotations

import collections
import pathlib
import subprocess
from random import Random
from typing import Optional

from pddl_parts.task import read_task
from picture_parts.reading import Refused, Report
from task_parts import written
from task_parts.brute_force import Search, TooLarge
from task_parts.drawn import problem
from task_parts.prepare import Preparation


class Difference(Exception):
    """What is wrong with a case."""


def demand(holds: bool, fault: str) -> None:
    if not holds:
        raise Difference(fault)


def solve(folder: pathlib.Path, program: Optional[str]) -> Report:
    """The report of the prepared task, by the program and its checker, or without one by search."""
    files = [str(folder / name) for name in (written.DOMAIN, written.PROBLEM)]
    if program is None:
        found = Search(*(pathlib.Path(name).read_text() for name in files)).least()
        if found is None:
            return Report()
        return Report(found[0], [f"({' '.join(words)})" for words in found[1]], found[0])
    certificate = str(folder / "certificate")
    run = subprocess.run([program, "solve", "strips", *files, "--cert", certificate],
                         capture_output=True, text=True, check=False)
    demand(run.returncode in (0, 1), f"solve ends with {run.returncode}: {run.stdout.strip()}")
    check = subprocess.run([program, "check", "strips", certificate, *files],
                           capture_output=True, text=True, check=False)
    lines = run.stdout.splitlines()
    if run.returncode == 1:
        demand(check.stdout == "accepted none\n", f"the certificate: {check.stdout}")
        return Report()
    cost = int(lines[0].split()[1])
    demand(check.stdout == f"accepted cost {cost} {lines[-1]}\n", f"check: {check.stdout}")
    return Report(cost, lines[1:-1], int(lines[-1].split()[1]))


def compare(seed: int, folder: pathlib.Path, program: Optional[str]) -> str:
    """What the case of a seed is; Difference says what is wrong with it."""
    texts = problem(Random(seed))
    names = [folder / name for name in ("original-domain", "original-problem")]
    for name, text in zip(names, texts):
        name.write_text(text)
    search = Search(*texts)
    try:
        least = search.least()
    except TooLarge:
        return "too large"
    prepared = folder / "prepared"
    try:
        task = read_task(*map(str, names))
        preparation = Preparation(task)
    except Refused as fault:
        return f"refused: {str(fault).split(': ')[-1]}"
    written.write(preparation, prepared)
    report = solve(prepared, program)
    demand((report.steps is None) == (least is None), "only one of both finds a plan")
    if least is None:
        return "no plan"
    claim = written.Back.read(str(prepared / written.BACK)).claim(report, "report")
    plan = [tuple(step[1:-1].split()) for step in claim.steps]
    demand(claim.cost == least[0], f"cost {claim.cost}, and the least is {least[0]}")
    demand(claim.bound == least[0], f"bound {claim.bound}, and the least is {least[0]}")
    demand(search.cost_of(plan) == claim.cost, "the plan isn't one of the original")
    state, cost = task.start(), 0
    for words in plan:
        state, price = task.step(state, list(words))
        cost += price
    demand(task.is_goal(state) and cost == claim.cost, "the judge says that it is no plan")
    return f"cost {'0' if least[0] == 0 else 'above 0'}, {'scaled' if claim.below else 'as it is'}"


def compare_all(first: int, problems: int, folder: pathlib.Path,
                program: Optional[str]) -> tuple[collections.Counter, list[str]]:
    """Counts of the cases from a seed on, until so many were compared, and what differed."""
    counts: collections.Counter = collections.Counter()
    wrong, seed, compared = [], first, 0
    while compared < problems and not len(wrong) > 20:
        try:
            what = compare(seed, folder, program)
            counts[what] += 1
            compared += not what.startswith(("too large", "refused"))
        except Difference as fault:
            wrong.append(f"seed {seed}: {fault}")
        seed += 1
    return counts, wrong
