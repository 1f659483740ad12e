"""Which facts hold along a plan: a row for each fact that changes, a column for each moment."""

import re

from pddl_parts.strips import Lifted

from . import canvas
from .reading import Refused, read_report

COLUMN, ROW, SIZE = 24, 22, 13
STEP = re.compile(r"\([a-z0-9][a-z0-9_-]*(?: [a-z0-9][a-z0-9_-]*)*\)")


def states_along(lifted, report, name):
    state = lifted.start()
    states = [state]
    for at, step in enumerate(report.steps or []):
        state = lifted.step(state, step[1:-1].split(" "))
        if isinstance(state, str):
            raise Refused(name, f"line {report.first + at}", f"`{step}` {state}")
        states.append(state)
    cost = sum(lifted.cost(step[1:-1].split(" ")) for step in report.steps or [])
    if report.steps is not None and report.cost != cost:
        raise Refused(name, f"line {report.first - 1}", f"the steps cost {cost}")
    if report.steps is not None and not lifted.goal() <= state:
        line = report.first + len(states) - 1
        raise Refused(name, f"line {line}", "the steps don't lead to the goal")
    return states


def changing(states):
    """The facts that hold at one moment and not at another, by when they first change."""
    facts = set().union(*states)
    found = []
    for fact in sorted(facts):
        moments = [fact in state for state in states]
        if not all(moments):
            found.append((moments.index(not moments[0]), fact))
    return [fact for _, fact in sorted(found)]


def stretches(fact, states):
    """The stretches of moments in which the fact holds, as (first, count)."""
    found = []
    for at, state in enumerate(states):
        if fact in state:
            if found and sum(found[-1]) == at:
                found[-1] = (found[-1][0], found[-1][1] + 1)
            else:
                found.append((at, 1))
    return found


def heads(left, top, steps):
    """The steps, written upwards over their columns; each stands between two moments."""
    parts = []
    for at, step in enumerate(["at first", *(f"{i + 1} {s}" for i, s in enumerate(steps))]):
        x = left + (at + 0.5) * COLUMN + SIZE * 0.35
        parts.append(canvas.text("f-ink mono", 0, 0, SIZE, step, "start",
                                 f' transform="translate({canvas.n(x)} {top - 8}) rotate(-90)"'))
    return parts


def fact_rows(left, top, facts, goal, states):
    parts = []
    for row, fact in enumerate(facts):
        y = top + row * ROW
        if row % 2 == 0:
            parts.append(canvas.rect("f-land", 0, y, left + len(states) * COLUMN, ROW))
        weight = ' font-weight="bold"' if fact in goal else ""
        parts.append(canvas.text("f-ink mono", left - 10, y + ROW * 0.7, SIZE, fact, "end", weight))
        parts.append(f'<g class="{"f-plan" if fact in goal else "f-closed4"} fact">')
        for first, count in stretches(fact, states):
            parts.append(f'<rect x="{left + first * COLUMN + 1}" y="{y + 4}" '
                         f'width="{count * COLUMN - 2}" height="{ROW - 8}" rx="3" '
                         f'data-moments="{count}"/>')
        parts.append("</g>")
    return parts


def draw_strips(options):
    lifted = Lifted(options.domain, options.problem)
    report = read_report(options.report, lambda step: STEP.fullmatch(step) is not None)
    states = states_along(lifted, report, options.report)
    facts, goal = changing(states), lifted.goal()
    steps = report.steps or []
    mono = SIZE * canvas.CHARACTER
    left = max((len(fact) for fact in facts), default=4) * mono + 16
    top = max(len(step) + 1 + len(str(len(steps))) for step in [*steps, "at first"]) * mono + 12
    width, height = left + len(states) * COLUMN + 2, top + len(facts) * ROW + 2
    page = canvas.Page(width, 1.0, options.colours)
    page.title(f"{lifted.domain}, {lifted.problem}")
    page.facts(report.headline()[0].upper() + report.headline()[1:] + ".")
    if not steps:
        page.facts("No step is drawn.")
        return page.svg()
    page.facts(f"Facts that change: {len(facts)}. A bar says when a fact holds.")
    parts = fact_rows(left, top, facts, goal, states)
    for at in range(len(states) + 1):
        x = left + at * COLUMN
        parts.append(canvas.line("s-line", [(x, top), (x, height - 2)], 1, ' opacity=".35"'))
    page.figure(parts + heads(left, top, steps), width, height)
    page.legend([(canvas.box("f-closed4"), 1, "holds"),
                 (canvas.box("f-plan"), 1, "holds, and is in the goal (bold)")])
    return page.svg()
