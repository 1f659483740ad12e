#!/usr/bin/env python3
"""A stand-in for the built program in the tests of tools/suite: `solve` by a plain A* over the tasks
of the second checker, with certificate and journal, and `check` by that checker. It knows
`--pattern`, `--reachable` and `--tables`. With `--estimate tables` its certificate states no table,
and with `--falling` it claims the same plan at each weight.

Some lots make it behave badly on purpose: 2001 never ends, 2002 takes memory without end, 2003 ends
by a signal, 2004 saves a certificate with another cost, 2005 never ends after a claim, 2006 stops
in grounding. The file that STAND_IN_LOG names gets a line for each search that ended, and
STAND_IN_PAUSE is how many seconds a search takes.
"""

import argparse
import heapq
import os
import pathlib
import signal
import sys
import time

sys.dont_write_bytecode = True
TOOLS = pathlib.Path(__file__).resolve().parent.parent
sys.path[:0] = [str(TOOLS), str(TOOLS.parent / "checker")]

import pbnf_check  # noqa: E402
import table_files  # noqa: E402

STEPS = ("up", "down", "left", "right")
ENDLESS, GREEDY, KILLED, WRONG, LATE, UNGROUNDED = range(2001, 2007)


def options_of(words):
    parser = argparse.ArgumentParser()
    parser.add_argument("command", choices=("solve", "check"))
    parser.add_argument("kind")
    parser.add_argument("files", nargs="+")
    for name, default in (("row", 0), ("lot", 256), ("budget", 2**24), ("workers", 1), ("num", 1),
                          ("den", 1), ("blocks", 256), ("pattern", 0), ("falling", 0)):
        parser.add_argument(f"--{name}", type=int, default=default)
    parser.add_argument("--swamp", action="store_true")
    parser.add_argument("--reachable", action="store_true")
    parser.add_argument("--plain", action="store_true")
    parser.add_argument("--engine")
    parser.add_argument("--estimate", choices=("tables",))
    parser.add_argument("--effort", type=int, default=10)
    parser.add_argument("--tables")
    parser.add_argument("--cert")
    parser.add_argument("--trace")
    try:
        return parser.parse_args(words)
    except SystemExit:
        sys.exit(64)


def search(task, budget, estimate):
    """Rows by state, the goal if one was reached, and how many expansions were made. None if the
    budget is used up."""
    rows, parents, closed, made = {task.start: 0}, {}, set(), 0
    queue = [(estimate(task.start), task.start)] * (estimate(task.start) < float("inf"))
    while queue:
        _, state = heapq.heappop(queue)
        if state in closed:
            continue
        if task.estimate(state) == 0:
            return rows, closed, parents, state, made
        if made == budget:
            return None
        made += 1
        closed.add(state)
        for action in range(len(task.actions)):
            to = task.step(state, action)
            g = rows[state] + (task.cost(action, to) if to is not None else 0)
            if to is not None and g < rows.get(to, float("inf")):
                rows[to], parents[to] = g, (state, action)
                closed.discard(to)
                if estimate(to) < float("inf"):
                    heapq.heappush(queue, (g + estimate(to), to))
    return rows, closed, parents, None, made


def plan_to(state, parents):
    actions = []
    while state in parents:
        state, action = parents[state]
        actions.append(action)
    return actions[::-1]


NO_TABLES = b"estimate tables 1 0 0\n"


def tables_asked(task, options):
    """The lines of the tables that the estimate goes by, or None. Where tables are looked for, none
    are found, and each estimate is 0."""
    if task.kind != "strips" or not options.estimate and options.tables is None:
        return None
    return NO_TABLES if options.estimate else pathlib.Path(options.tables).read_bytes()


def certificate_of(task, options, weight, plan, cost, rows, closed):
    pattern, lines = options.pattern, [f"kind {task.kind}", f"width {task.digits}"]
    tables = tables_asked(task, options)
    if tables is not None:
        lines.insert(0, "pbnf-certificate 4")
        lines += [f"grounding {task.grounding}", *tables.decode().splitlines()]
    elif task.grounding == "all":
        lines.insert(0, f"pbnf-certificate {3 if pattern else 2}")
        lines += [f"pattern {pattern}"] * (pattern > 0)
    else:
        lines.insert(0, "pbnf-certificate 4")
        lines += ["grounding reachable", f"estimate pattern {pattern}" if pattern else
                  "estimate plain"]
    lines.append("weight %d %d" % weight)
    lines += ["none"] if plan is None else [f"plan {len(plan)}", *map(str, plan), f"cost {cost}"]
    lines.append(f"rows {len(rows)}")
    lines += [f"{state:0{task.digits}x} {g} {'closed' if state in closed else 'cut'}"
              for state, g in sorted(rows.items())]
    return "\n".join([*lines, "end", ""])


def solve(options):
    texts = [pathlib.Path(name).read_bytes() for name in options.files]
    try:
        task = pbnf_check.KINDS[options.kind][0](options.row, *texts, swamp=options.swamp,
                                                 reachable=options.reachable)
        lines = tables_asked(task, options)
        tables = None if lines is None else table_files.read(pbnf_check, task, lines)
    except pbnf_check.Refused as refused:
        print("input", *refused.args)
        return 65
    misbehave(options.lot)
    if options.lot == UNGROUNDED:
        print("stopped grounding")
        return 2
    estimate = pbnf_check.estimate_by(task, options.pattern, tables)
    found = search(task, options.budget, estimate)
    if found is None:
        print(f"stopped budget {options.budget}")
        return 2
    rows, closed, parents, goal, made = found
    plan = None if goal is None else plan_to(goal, parents)
    cost = None if goal is None else rows[goal]
    if options.trace:
        pathlib.Path(options.trace).write_text(f"pbnf-journal 1\nrelease 0 {made} ok\n")
    for at, weight in enumerate(weights_of(options)):
        if options.cert:
            said = None if cost is None else cost + (options.lot == WRONG)
            name = f"{options.cert}.{at}" if options.falling else options.cert
            pathlib.Path(name).write_text(
                certificate_of(task, options, weight, plan, said, rows, closed))
        bound = None if cost is None else -(-weight[1] * cost // weight[0])
        report(task, plan, cost, bound, weight if options.falling else None)
        if options.lot == LATE:
            misbehave(ENDLESS)
        if bound == cost:
            break
    return 1 if plan is None else 0


def weights_of(options):
    """The weight of each claim; without falling weights that of the one search, which is 1."""
    num, den, steps = options.num, options.den, options.falling
    if not steps:
        return [(1, 1)]
    return [(den + (num - den) * (steps - at) // steps, den) for at in range(steps + 1)]


def misbehave(lot):
    time.sleep(float(os.environ.get("STAND_IN_PAUSE", "0")))
    while lot == ENDLESS:
        time.sleep(1)
    if lot == GREEDY:
        try:
            taken = []
            while True:
                taken.append(bytearray(2**24))
        except MemoryError:
            sys.exit(71)
    if lot == KILLED:
        os.kill(os.getpid(), signal.SIGSEGV)


def report(task, plan, cost, bound, weight):
    if "STAND_IN_LOG" in os.environ:
        with open(os.environ["STAND_IN_LOG"], "a", encoding="utf-8") as file:
            file.write(" ".join(sys.argv[1:]) + "\n")
    if plan is None:
        print("none")
        return
    if weight:
        print("weight %d %d" % weight)
    print(f"plan {cost} {len(plan)}")
    for action in plan:
        print(STEPS[action] if task.kind != "strips" else f"(action {action})")
    print(f"bound {bound}", flush=True)


def main(words):
    options = options_of(words)
    if options.engine == "hda" and (options.trace or options.falling):
        print("words engine")
        return 64
    if options.falling and options.trace:
        print("words falling")
        return 64
    if options.command == "check":
        status, line = pbnf_check.answer(words)
        print(line)
        return status
    return solve(options)


if __name__ == "__main__":
    sys.exit(main(sys.argv[1:]))
